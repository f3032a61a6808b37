//! Basic types, the byte forms of their values, and arithmetic.

#[derive(Clone, Copy, PartialEq, Eq, Debug, PartialOrd, Ord, Hash)]
pub enum Basic {
    Bool,
    Int,
    Double,
    Long,
    String,
    Raw,
    Void,
}

/// The one NaN that a value may hold.
pub const NAN_BITS: u64 = 0x7FF8_0000_0000_0000;

/// The longest string or raw value in bytes.
pub const LONGEST: usize = 16;

impl Basic {
    pub const ALL: [Basic; 7] =
        [Basic::Bool, Basic::Int, Basic::Double, Basic::Long, Basic::String, Basic::Raw, Basic::Void];

    pub fn from_byte(byte: u8) -> Option<Basic> {
        Basic::ALL.get(usize::from(byte)).copied()
    }

    pub fn byte(self) -> u8 {
        self as u8
    }

    pub fn name(self) -> &'static str {
        match self {
            Basic::Bool => "bool",
            Basic::Int => "int",
            Basic::Double => "double",
            Basic::Long => "long",
            Basic::String => "string",
            Basic::Raw => "raw",
            Basic::Void => "void",
        }
    }

    /// Int, long and double: what negate, add, subtract and less take.
    pub fn is_number(self) -> bool {
        matches!(self, Basic::Int | Basic::Long | Basic::Double)
    }

    /// Whether the bytes are a value of this type.
    pub fn holds(self, bytes: &[u8]) -> bool {
        match self {
            Basic::Bool => matches!(bytes, [0 | 1]),
            Basic::Int => bytes.len() == 4,
            Basic::Long => bytes.len() == 8,
            Basic::Double => bytes.try_into().is_ok_and(|eight| {
                let bits = u64::from_le_bytes(eight);
                !f64::from_bits(bits).is_nan() || bits == NAN_BITS
            }),
            Basic::String => bytes.len() <= LONGEST && std::str::from_utf8(bytes).is_ok(),
            Basic::Raw => bytes.len() <= LONGEST,
            Basic::Void => bytes.is_empty(),
        }
    }
}

/// A value: what an expression's operands are worked out to.
#[derive(Clone, PartialEq, Debug)]
pub enum Value {
    Bool(bool),
    Int(i32),
    Double(f64),
    Long(i64),
    String(Vec<u8>),
    Raw(Vec<u8>),
    Void,
}

/// What an expression is worked out to.
#[derive(Clone, PartialEq, Debug)]
pub enum Worked {
    Value(Value),
    /// An int or long sum outside its width is in it: only the basic type is known.
    Beyond(Basic),
}

impl Worked {
    pub fn basic(&self) -> Basic {
        match self {
            Worked::Value(value) => value.basic(),
            Worked::Beyond(basic) => *basic,
        }
    }

    pub fn value(&self) -> Option<&Value> {
        match self {
            Worked::Value(value) => Some(value),
            Worked::Beyond(_) => None,
        }
    }

    /// The exact result as an int, if that holds it.
    fn int(result: Option<i32>) -> Worked {
        result.map_or(Worked::Beyond(Basic::Int), |number| Worked::Value(Value::Int(number)))
    }

    fn long(result: Option<i64>) -> Worked {
        result.map_or(Worked::Beyond(Basic::Long), |number| Worked::Value(Value::Long(number)))
    }

    /// A double is never outside its range.
    fn double(result: f64) -> Worked {
        Worked::Value(Value::Double(canonical(result)))
    }
}

/// The double of a result: every NaN is the one NaN.
fn canonical(number: f64) -> f64 {
    if number.is_nan() {
        f64::from_bits(NAN_BITS)
    } else {
        number
    }
}

impl Value {
    /// The value of some bytes, if they are one of this type.
    pub fn read(basic: Basic, bytes: &[u8]) -> Option<Value> {
        if !basic.holds(bytes) {
            return None;
        }
        Some(match basic {
            Basic::Bool => Value::Bool(bytes == [1]),
            Basic::Int => Value::Int(i32::from_le_bytes(bytes.try_into().ok()?)),
            Basic::Double => Value::Double(f64::from_le_bytes(bytes.try_into().ok()?)),
            Basic::Long => Value::Long(i64::from_le_bytes(bytes.try_into().ok()?)),
            Basic::String => Value::String(bytes.to_vec()),
            Basic::Raw => Value::Raw(bytes.to_vec()),
            Basic::Void => Value::Void,
        })
    }

    pub fn bytes(&self) -> Vec<u8> {
        match self {
            Value::Bool(truth) => vec![(*truth).into()],
            Value::Int(number) => number.to_le_bytes().to_vec(),
            Value::Double(number) => number.to_le_bytes().to_vec(),
            Value::Long(number) => number.to_le_bytes().to_vec(),
            Value::String(bytes) | Value::Raw(bytes) => bytes.clone(),
            Value::Void => Vec::new(),
        }
    }

    pub fn basic(&self) -> Basic {
        match self {
            Value::Bool(_) => Basic::Bool,
            Value::Int(_) => Basic::Int,
            Value::Double(_) => Basic::Double,
            Value::Long(_) => Basic::Long,
            Value::String(_) => Basic::String,
            Value::Raw(_) => Basic::Raw,
            Value::Void => Basic::Void,
        }
    }

    /// None for an operand of a wrong type, here and below.
    pub fn not(&self) -> Option<Value> {
        match self {
            Value::Bool(truth) => Some(Value::Bool(!truth)),
            _ => None,
        }
    }

    pub fn and(&self, other: &Value) -> Option<Value> {
        match (self, other) {
            (Value::Bool(left), Value::Bool(right)) => Some(Value::Bool(*left && *right)),
            _ => None,
        }
    }

    /// Flips a double's sign, of 0 too; a NaN stays.
    pub fn negate(&self) -> Option<Worked> {
        match self {
            Value::Int(number) => Some(Worked::int(number.checked_neg())),
            Value::Long(number) => Some(Worked::long(number.checked_neg())),
            Value::Double(number) => Some(Worked::double(-number)),
            _ => None,
        }
    }

    pub fn add(&self, other: &Value) -> Option<Worked> {
        match (self, other) {
            (Value::Int(left), Value::Int(right)) => Some(Worked::int(left.checked_add(*right))),
            (Value::Long(left), Value::Long(right)) => Some(Worked::long(left.checked_add(*right))),
            (Value::Double(left), Value::Double(right)) => Some(Worked::double(left + right)),
            _ => None,
        }
    }

    pub fn subtract(&self, other: &Value) -> Option<Worked> {
        match (self, other) {
            (Value::Int(left), Value::Int(right)) => Some(Worked::int(left.checked_sub(*right))),
            (Value::Long(left), Value::Long(right)) => Some(Worked::long(left.checked_sub(*right))),
            (Value::Double(left), Value::Double(right)) => Some(Worked::double(left - right)),
            _ => None,
        }
    }

    pub fn less(&self, other: &Value) -> Option<Value> {
        match (self, other) {
            (Value::Int(left), Value::Int(right)) => Some(Value::Bool(left < right)),
            (Value::Long(left), Value::Long(right)) => Some(Value::Bool(left < right)),
            (Value::Double(left), Value::Double(right)) => Some(Value::Bool(left < right)),
            _ => None,
        }
    }

    /// Doubles by IEEE equality, the others by their bytes; void has none.
    pub fn equal(&self, other: &Value) -> Option<Value> {
        if self.basic() != other.basic() || self.basic() == Basic::Void {
            return None;
        }
        Some(Value::Bool(self == other))
    }
}

#[cfg(test)]
mod tests {
    use super::*;

    #[test]
    fn values_have_their_lengths() {
        let lengths = |basic: Basic| (0..=20).filter(|&n| basic.holds(&vec![0; n])).collect::<Vec<_>>();
        assert_eq!(lengths(Basic::Bool), [1]);
        assert_eq!(lengths(Basic::Int), [4]);
        assert_eq!(lengths(Basic::Double), [8]);
        assert_eq!(lengths(Basic::Long), [8]);
        assert_eq!(lengths(Basic::String), (0..=16).collect::<Vec<_>>());
        assert_eq!(lengths(Basic::Raw), (0..=16).collect::<Vec<_>>());
        assert_eq!(lengths(Basic::Void), [0]);
    }

    #[test]
    fn a_bool_is_zero_or_one() {
        assert!(Basic::Bool.holds(&[1]));
        assert!(!Basic::Bool.holds(&[2]));
    }

    #[test]
    fn a_string_is_well_formed_utf8() {
        for text in ["", "\0", "\u{7f}", "é", "荷重", "\u{d7ff}\u{e000}", "\u{feff}\u{ffff}", "\u{10000}\u{10ffff}"]
        {
            assert!(Basic::String.holds(text.as_bytes()), "{text:?}");
        }
        for broken in [
            &b"a\x80"[..],
            b"\xc3",
            b"\xe2\x82a",
            b"\xc1\xbf",
            b"\xe0\x9f\xbf",
            b"\xf0\x8f\xbf\xbf",
            b"\xed\xa0\x80",
            b"\xf4\x90\x80\x80",
            b"\xf5",
            b"\xff",
        ] {
            assert!(!Basic::String.holds(broken) && Basic::Raw.holds(broken), "{broken:02x?}");
        }
    }

    /// 16 counts bytes: five characters of three bytes and one of one, then of two.
    #[test]
    fn a_string_is_as_long_as_its_bytes() {
        assert!(Basic::String.holds("荷荷荷荷荷a".as_bytes()));
        assert!(!Basic::String.holds("荷荷荷荷荷é".as_bytes()));
    }

    #[test]
    fn one_nan_only() {
        let holds = |bits: u64| Basic::Double.holds(&bits.to_le_bytes());
        assert!(holds(NAN_BITS));
        assert!(!holds(NAN_BITS | 1));
        assert!(!holds(NAN_BITS | 1 << 63));
        assert!(!holds(0x7FF0_0000_0000_0001));
        assert!(holds(0x7FF0_0000_0000_0000));
        assert!(holds(0xFFF0_0000_0000_0000));
        assert!(holds(0x8000_0000_0000_0000));
        assert!(Basic::Long.holds(&(NAN_BITS | 1).to_le_bytes()));
    }

    fn beyond(basic: Basic) -> Option<Worked> {
        Some(Worked::Beyond(basic))
    }

    #[test]
    fn case_h_two_results_are_outside_int() {
        assert_eq!(Value::Int(2_147_483_647).add(&Value::Int(1)), beyond(Basic::Int));
        assert_eq!(Value::Int(-2_147_483_648).negate(), beyond(Basic::Int));
    }

    /// Every pair of values near an end or 0, against the exact result.
    #[test]
    fn sums_are_exact_up_to_both_ends() {
        for a in near([i32::MIN.into(), 0, i32::MAX.into()]) {
            for b in near([i32::MIN.into(), 0, i32::MAX.into()]) {
                let int = |number: i128| i32::try_from(number).map_or(Worked::Beyond(Basic::Int), int);
                let (left, right) = (Value::Int(a as i32), Value::Int(b as i32));
                assert_eq!(left.add(&right), Some(int(a + b)), "{a} + {b}");
                assert_eq!(left.subtract(&right), Some(int(a - b)), "{a} - {b}");
                assert_eq!(left.negate(), Some(int(-a)), "-{a}");
            }
        }
        for a in near([i64::MIN.into(), 0, i64::MAX.into()]) {
            for b in near([i64::MIN.into(), 0, i64::MAX.into()]) {
                let long = |number: i128| i64::try_from(number).map_or(Worked::Beyond(Basic::Long), long);
                let (left, right) = (Value::Long(a as i64), Value::Long(b as i64));
                assert_eq!(left.add(&right), Some(long(a + b)), "{a} + {b}");
                assert_eq!(left.subtract(&right), Some(long(a - b)), "{a} - {b}");
                assert_eq!(left.negate(), Some(long(-a)), "-{a}");
            }
        }
    }

    /// The numbers up to three from each of a range's ends and its middle, inside the range.
    fn near([low, middle, high]: [i128; 3]) -> Vec<i128> {
        let around = [low, middle, high].into_iter().flat_map(|number| number - 3..=number + 3);
        around.filter(|number| (low..=high).contains(number)).collect()
    }

    fn int(number: i32) -> Worked {
        Worked::Value(Value::Int(number))
    }

    fn long(number: i64) -> Worked {
        Worked::Value(Value::Long(number))
    }

    #[test]
    fn doubles_have_no_end() {
        let most = Value::Double(f64::MAX);
        assert_eq!(most.add(&most), Some(Worked::Value(Value::Double(f64::INFINITY))));
        assert_eq!(most.negate().and_then(|least| least.value()?.subtract(&most)).map(bits), Some(0xFFF0 << 48));
    }

    fn bits(worked: Worked) -> u64 {
        match worked {
            Worked::Value(Value::Double(number)) => number.to_bits(),
            other => panic!("{other:?} is no double"),
        }
    }

    #[test]
    fn case_i_a_double_sum_is_rounded_once() {
        assert_eq!(Value::Double(0.1).add(&Value::Double(0.2)).map(bits), Some(0x3FD3_3333_3333_3334));
    }

    #[test]
    fn every_nan_is_the_one_nan() {
        let infinity = Value::Double(f64::INFINITY);
        assert_eq!(infinity.subtract(&infinity).map(bits), Some(NAN_BITS));
        let nan = Value::Double(f64::from_bits(NAN_BITS));
        assert_eq!(nan.negate().map(bits), Some(NAN_BITS));
        assert_eq!(nan.add(&Value::Double(1.0)).map(bits), Some(NAN_BITS));
        assert_eq!(nan.equal(&nan), Some(Value::Bool(false)));
        assert_eq!(nan.less(&nan), Some(Value::Bool(false)));
        assert_eq!(Value::Double(0.0).negate().map(bits), Some(1 << 63));
        assert_eq!(Value::Double(0.0).equal(&Value::Double(-0.0)), Some(Value::Bool(true)));
    }

    #[test]
    fn operands_are_alike() {
        assert_eq!(Value::Int(1).add(&Value::Long(1)), None);
        assert_eq!(Value::Int(1).less(&Value::Double(1.0)), None);
        assert_eq!(Value::String(b"a".to_vec()).equal(&Value::Raw(b"a".to_vec())), None);
        assert_eq!(Value::String(b"a".to_vec()).equal(&Value::String(b"a".to_vec())), Some(Value::Bool(true)));
        assert_eq!(Value::Void.equal(&Value::Void), None);
        assert_eq!(Value::Int(0).not(), None);
        assert_eq!(Value::Bool(true).and(&Value::Int(1)), None);
        assert_eq!(Value::String(Vec::new()).negate(), None);
        assert_eq!(Value::Bool(true).less(&Value::Bool(false)), None);
    }

    #[test]
    fn values_and_bytes() {
        for (basic, bytes) in [
            (Basic::Bool, vec![1]),
            (Basic::Int, vec![1, 2, 3, 4]),
            (Basic::Double, vec![1, 2, 3, 4, 5, 6, 7, 8]),
            (Basic::Long, vec![1, 2, 3, 4, 5, 6, 7, 8]),
            (Basic::String, vec![0, 0xC3, 0xA9]),
            (Basic::Raw, vec![7; 16]),
            (Basic::Void, vec![]),
        ] {
            let value = Value::read(basic, &bytes).expect("a value");
            assert_eq!((value.basic(), value.bytes()), (basic, bytes));
        }
        assert_eq!(Value::read(Basic::Int, &[1, 2, 3]), None);
        assert_eq!(Value::read(Basic::String, &[0, 255]), None);
        assert_eq!(Value::read(Basic::Int, &[254, 255, 255, 255]), Some(Value::Int(-2)));
    }
}
