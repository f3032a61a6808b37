//! The paper's own cases, a to g, and its run cases for the checker.

mod rows;

use rows::*;
use second::environment::{is_subtype, Environment, Lookup};
use second::{check, report, Basic, Cause, Network, Tables};

/// A network whose T rows are the given ones; the subtype test of two of its rows.
fn subtype(types: Vec<second::tables::TypeRow>, left: usize, right: usize) -> bool {
    let tables = Tables { types, services: vec![service(1, None, None)], ..Tables::default() };
    let network = Network::read(&tables.write()).expect("right rows");
    is_subtype(&network.write_out(left), &network.write_out(right))
}

/// Row 0: int{.x:string .y:bool}; 3: int{.x?:string .y:bool}; 6: int{.y:bool}; 8: int; 9: long.
fn case_types() -> Vec<second::tables::TypeRow> {
    vec![
        root(INT, 1, 2),
        mandatory(1, STRING),
        mandatory(2, BOOL),
        root(INT, 4, 2),
        optional(1, STRING),
        mandatory(2, BOOL),
        root(INT, 7, 1),
        mandatory(2, BOOL),
        root(INT, 0, 0),
        root(LONG, 0, 0),
    ]
}

#[test]
fn case_a_mandatory_fits_optional() {
    assert!(subtype(case_types(), 0, 3));
}

#[test]
fn case_b_absent_fits_optional_and_not_reversed() {
    assert!(subtype(case_types(), 6, 3));
    assert!(!subtype(case_types(), 3, 6));
    assert!(!subtype(case_types(), 3, 0));
    assert!(!subtype(case_types(), 6, 0));
}

#[test]
fn case_c_int_is_no_long() {
    assert!(!subtype(case_types(), 8, 9));
    assert!(!subtype(case_types(), 9, 8));
}

#[test]
fn subtyping_goes_below_the_root() {
    // 0: void{.1:void{.2:int}}; 3: void{.1:void{.2:long}}; 6: void{.1:void{.2?:int}}
    let nested = |leaf| {
        let mut middle = mandatory(1, VOID);
        middle.child_count = 1;
        (middle, leaf)
    };
    let mut types = Vec::new();
    for (row, (mut middle, leaf)) in
        [nested(mandatory(2, INT)), nested(mandatory(2, LONG)), nested(optional(2, INT))].into_iter().enumerate()
    {
        let row = 3 * row as u16;
        middle.first_child = row + 2;
        types.extend([root(VOID, row + 1, 1), middle, leaf]);
    }
    assert!(subtype(types.clone(), 0, 6));
    assert!(!subtype(types.clone(), 6, 0));
    assert!(!subtype(types.clone(), 0, 3));
    assert!(subtype(types, 3, 3));
}

/// A client that assigns int 12 at 5.7, then what `more` adds.
fn assigning(more: impl Fn(&mut Tables) -> Vec<second::tables::BehaviourRow>) -> Tables {
    let mut tables =
        Tables { paths: vec![path(&[5, 7])], services: vec![service(1, None, Some(0))], ..Tables::default() };
    let twelve = constant(&mut tables, INT, &[12, 0, 0, 0]);
    tables.behaviours = more(&mut tables);
    if tables.behaviours.is_empty() {
        tables.behaviours = vec![behaviour(9, &[0, twelve])];
    } else {
        tables.behaviours.insert(0, behaviour(9, &[0, twelve]));
        tables.behaviours.insert(0, behaviour(7, &[1, 2]));
    }
    tables
}

const CASE_D: &str = "0500070000000000 0001000004000000 09000000000000000000 0100ffff00000000 0c000000 \
    00000100 08000000 08000100 10000100 1a000000 1a000100 22000400";

fn bytes_of_hex(text: &str) -> Vec<u8> {
    let digits: Vec<u8> = text.chars().filter_map(|c| c.to_digit(16)).map(|digit| digit as u8).collect();
    digits.chunks(2).map(|pair| pair[0] << 4 | pair[1]).collect()
}

#[test]
fn case_d_assigns_a_new_path() {
    let file = bytes_of_hex(CASE_D);
    assert_eq!(file.len(), 66);
    assert_eq!(assigning(|_| vec![]).write(), file);
    assert_eq!(report(&check(&file)), "accepted\n0 C 5 ! void\n0 C 5.7 ! int\n");
}

#[test]
fn case_e_another_basic_type() {
    let tables = assigning(|tables| {
        let yes = constant(tables, BOOL, &[1]);
        vec![behaviour(9, &[0, yes])]
    });
    assert_eq!(verdict(&tables), "refused 9 2");
}

#[test]
fn case_f_a_while_that_adds_a_path() {
    let tables = assigning(|tables| {
        let yes = constant(tables, BOOL, &[1]);
        tables.paths.push(path(&[5, 8]));
        vec![behaviour(6, &[yes, 3]), behaviour(9, &[1, yes])]
    });
    assert_eq!(verdict(&tables), "refused 10 2");
}

#[test]
fn case_g_reading_an_optional_path() {
    // A starter receives void{.7?:int} at 5 and assigns 5.7 to 6.
    let tables = Tables {
        paths: vec![path(&[5]), path(&[5, 7]), path(&[6])],
        types: vec![root(VOID, 1, 1), optional(7, INT)],
        expressions: vec![expression(1, 1, 0)],
        behaviours: vec![behaviour(10, &[1, 1]), behaviour(11, &[2, 3]), behaviour(1, &[0, 0]), behaviour(9, &[2, 0])],
        operations: vec![input(0, 9, 0, None)],
        services: vec![service(1, Some(0), None)],
        ..Tables::default()
    };
    assert_eq!(verdict(&tables), "refused 7 3");
    // The mandatory child may be read, and the presence of the optional one tested.
    let mut firm = tables.clone();
    firm.types[1].cardinality = 1;
    assert_eq!(verdict(&firm), "accepted\n0 S 5 ! void\n0 S 5.7 ! int\n0 S 6 ! int");
    let mut tested = tables.clone();
    tested.expressions[0].kind = 2;
    assert_eq!(verdict(&tested), "accepted\n0 S 5 ! void\n0 S 5.7 ? int\n0 S 6 ! bool");
}

#[test]
fn forty_eight_nodes_pass_and_forty_nine_do_not() {
    let network = |nodes: u16| {
        let mut tables = Tables { services: vec![service(1, None, Some(0))], ..Tables::default() };
        let yes = constant(&mut tables, BOOL, &[1]);
        tables.paths = (1..=nodes).map(|id| path(&[id])).collect();
        for id in 0..nodes - 1 {
            tables.behaviours.push(behaviour(7, &[2 * id + 1, 2 * id + 2]));
            tables.behaviours.push(behaviour(9, &[id, yes]));
        }
        tables.behaviours.push(behaviour(9, &[nodes - 1, yes]));
        tables
    };
    assert_eq!(verdict(&network(48)).lines().count(), 49);
    assert_eq!(verdict(&network(49)), "refused 12 96");
}

#[test]
fn six_levels_pass_and_seven_do_not() {
    // A type of n levels placed at a path of four steps.
    let network = |levels: u16, steps: usize| {
        let mut types: Vec<_> = (0..levels).map(|level| mandatory(level, VOID)).collect();
        for level in 0..levels - 1 {
            types[usize::from(level)].first_child = level + 1;
            types[usize::from(level)].child_count = 1;
        }
        Tables {
            paths: vec![path(&[1, 2, 3, 4][..steps])],
            types,
            behaviours: vec![behaviour(1, &[0, 0])],
            operations: vec![input(0, 9, 0, None)],
            services: vec![service(1, None, Some(0))],
            ..Tables::default()
        }
    };
    assert_eq!(verdict(&network(3, 4)).lines().count(), 7);
    assert_eq!(verdict(&network(4, 3)).lines().count(), 7);
    assert_eq!(verdict(&network(4, 4)), "refused 12 0");
}

#[test]
fn an_environment_keeps_its_trees_in_order() {
    let mut gamma = Environment::default();
    for (ids, basic) in [([5, 7], Basic::Int), ([5, 3], Basic::Bool), ([2, 1], Basic::Raw), ([9, 9], Basic::Long)] {
        gamma.assign(&ids, basic).expect("room");
    }
    gamma.assign(&[5, 7, 1], Basic::Double).expect("room");
    let mut seen = Vec::new();
    gamma.visit(|path, node| seen.push((path.to_vec(), node.basic, node.size)));
    let expected = [
        (vec![2], Basic::Void, 2),
        (vec![2, 1], Basic::Raw, 1),
        (vec![5], Basic::Void, 4),
        (vec![5, 3], Basic::Bool, 1),
        (vec![5, 7], Basic::Int, 2),
        (vec![5, 7, 1], Basic::Double, 1),
        (vec![9], Basic::Void, 2),
        (vec![9, 9], Basic::Long, 1),
    ];
    assert_eq!(seen, expected);
    assert_eq!(gamma.lookup(&[5, 7, 1]), Lookup::Found { at: 5, firm: true });
    assert_eq!(gamma.lookup(&[5, 7, 2]), Lookup::Missing);
    assert_eq!(gamma.assign(&[5], Basic::Int), Err(Cause::AssignedBasic));
}

#[test]
fn longer_than_the_longest_file() {
    assert_eq!(report(&check(&vec![0; 32_769])), "refused 2 0\n");
}
