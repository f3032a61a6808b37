//! Each operator on each basic type, and a binary one on each pair of unlike ones: the cases stored in
//! cases/operators. Their answers come from 01's rule, which stands here by itself: the checker is not asked.

use std::collections::BTreeMap;

use second::tables::{BehaviourRow, ExpressionRow, ServiceRow, Tables, NONE};
use second::Basic;

/// An operator's E row, and its rule.
struct Operator {
    kind: u8,
    name: &'static str,
    operands: usize,
    /// Whether it takes operands of this type; two must be alike besides.
    takes: fn(Basic) -> bool,
    /// The type of the result for operands of a type that it takes.
    gives: fn(Basic) -> Basic,
}

/// 01: "Not, and: bool; .. Negate, add, subtract, less: int, long or double, both alike. Equal: alike, not void; .."
const OPERATORS: [Operator; 7] = [
    Operator { kind: 3, name: "not", operands: 1, takes: truth, gives: |_| Basic::Bool },
    Operator { kind: 4, name: "negate", operands: 1, takes: number, gives: |basic| basic },
    Operator { kind: 5, name: "add", operands: 2, takes: number, gives: |basic| basic },
    Operator { kind: 6, name: "subtract", operands: 2, takes: number, gives: |basic| basic },
    Operator { kind: 7, name: "less", operands: 2, takes: number, gives: |_| Basic::Bool },
    Operator { kind: 8, name: "equal", operands: 2, takes: |basic| basic != Basic::Void, gives: |_| Basic::Bool },
    Operator { kind: 9, name: "and", operands: 2, takes: truth, gives: |_| Basic::Bool },
];

fn truth(basic: Basic) -> bool {
    basic == Basic::Bool
}

fn number(basic: Basic) -> bool {
    [Basic::Int, Basic::Long, Basic::Double].contains(&basic)
}

/// A network and what program `check` prints for it, its lines parted by spaces.
pub struct Case {
    /// The operator and the types of its operands.
    pub name: String,
    pub file: Vec<u8>,
    pub answer: String,
}

impl Case {
    fn of(operator: &Operator, operands: &[Basic]) -> Case {
        let words = [operator.name].into_iter().chain(operands.iter().map(|basic| basic.name()));
        let fits = (operator.takes)(operands[0]) && operands.iter().all(|basic| *basic == operands[0]);
        Case {
            name: words.collect::<Vec<_>>().join("_"),
            file: client(operator.kind, operands).write(),
            answer: if fits {
                format!("accepted 0 C 1 ! {}", (operator.gives)(operands[0]).name())
            } else {
                "refused 8 0".into()
            },
        }
    }
}

/// A client that assigns an operator's result on constants to path 1, in its only row.
fn client(kind: u8, operands: &[Basic]) -> Tables {
    let mut tables = Tables {
        paths: vec![[1, 0, 0, 0]],
        behaviours: vec![BehaviourRow { kind: 9, unused: 0, fields: [0, operands.len() as u16, 0, 0] }],
        services: vec![ServiceRow { location: 1, starter: NONE, client: 0, key: 0 }],
        ..Tables::default()
    };
    for &basic in operands {
        let value = least(basic);
        let fields = [tables.data.len() as u16, value.len() as u16, 0];
        tables.expressions.push(ExpressionRow { kind: 0, basic: basic.byte(), fields });
        tables.data.extend(value);
    }
    let fields = [0, operands.len() as u16 - 1, 0];
    tables.expressions.push(ExpressionRow { kind, basic: 0, fields });
    tables
}

/// The shortest value of zeros.
fn least(basic: Basic) -> Vec<u8> {
    (0..).map(|length| vec![0; length]).find(|bytes| basic.holds(bytes)).expect("a value of zeros")
}

/// Every case, by rising names.
pub fn all() -> Vec<Case> {
    let mut cases = Vec::new();
    for operator in &OPERATORS {
        for left in Basic::ALL {
            match operator.operands {
                1 => cases.push(Case::of(operator, &[left])),
                _ => cases.extend(Basic::ALL.map(|right| Case::of(operator, &[left, right]))),
            }
        }
    }
    cases.sort_by(|left, right| left.name.cmp(&right.name));
    cases
}

/// The files of cases/operators: each case's, and a line for each with its name and answer.
pub fn folder() -> BTreeMap<String, Vec<u8>> {
    let cases = all();
    let answers: String = cases.iter().map(|case| format!("{} {}\n", case.name, case.answer)).collect();
    let files = cases.into_iter().map(|case| (format!("{}.bin", case.name), case.file));
    files.chain([("answers.txt".into(), answers.into_bytes())]).collect()
}
