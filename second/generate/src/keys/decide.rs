//! Keys that decide the answer to a file: without them it is accepted. Worked out from the rows, without the checker's
//! rule for keys.

use second::tables::{OperationRow, Tables};
use second::{Basic, Refusal};

use super::held::{file_without, ids};

/// What is wrong with the key of an input.
#[derive(Clone, Copy, PartialEq, Eq, Debug)]
pub enum Unfit {
    Missing,
    Optional,
    OtherBasic,
}

/// The inputs that have not the keys of their services, by O row, of a file that passes 2 to 5.
pub fn unfit(file: &[u8]) -> Vec<(usize, Unfit)> {
    let Ok((tables, _)) = Tables::read(file) else { return Vec::new() };
    let keys = ids(file);
    let of_row = |(row, operation): (usize, &OperationRow)| {
        let key = keys[usize::from(operation.service)];
        let judged = operation.direction == 0 && key != 0;
        judged.then(|| unfit_key(&tables, operation.request, key)).flatten().map(|unfit| (row, unfit))
    };
    tables.operations.iter().enumerate().filter_map(of_row).collect()
}

fn unfit_key(tables: &Tables, request: u16, key: u16) -> Option<Unfit> {
    let root = &tables.types[usize::from(request)];
    let first = usize::from(root.first_child);
    let mut children = tables.types[first..first + usize::from(root.child_count)].iter();
    match children.find(|child| child.id == key) {
        None => Some(Unfit::Missing),
        Some(child) if child.cardinality == 0 => Some(Unfit::Optional),
        Some(child) if child.basic != Basic::Int.byte() => Some(Unfit::OtherBasic),
        Some(_) => None,
    }
}

/// Whether the refusal is not the one that the keys ask for: that of the file without them; where that is accepted, 23
/// at the lowest unfit input, or none.
pub fn wrong_refusal(file: &[u8], refusal: Option<&Refusal>) -> bool {
    let plain = second::check(&file_without(file)).err();
    let by_keys = || unfit(file).first().map(|&(row, _)| (23, row));
    let expected = plain.map(|refusal| (refusal.number, refusal.place)).or_else(by_keys);
    refusal.map(|refusal| (refusal.number, refusal.place)) != expected
}

#[cfg(test)]
mod tests {
    use super::*;
    use second::Cause;

    fn file(text: &str) -> Vec<u8> {
        net::assemble(text).unwrap_or_else(|error| panic!("{error}")).file
    }

    const UNFIT: &str = "type Fit = int { 7: int { 1: bool } } \
        service 1 { input 1: void } \
        service 2 keyed by 7 { input 1: Fit output 2 to 9: void input 3: void { 7: long } input 4: void { 7?: int } } \
        service 3 keyed by 9 { input 1: Fit input 2: void { 8: void { 9: int } } input 3: void { 9?: raw } }";

    #[test]
    fn inputs_are_judged_by_the_keys_of_their_services() {
        use Unfit::*;
        let expected = [(3, OtherBasic), (4, Optional), (5, Missing), (6, Missing), (7, Optional)];
        assert_eq!(unfit(&file(UNFIT)), expected);
        assert_eq!(unfit(&file_without(&file(UNFIT))), []);
        assert_eq!(unfit(&[]), []);
    }

    #[test]
    fn the_lowest_unfit_input_is_to_be_refused() {
        let file = file(UNFIT);
        for number in 0..100 {
            let refusal = Refusal::new(Cause::KeyMissing, number);
            assert_eq!(wrong_refusal(&file, Some(&refusal)), number != 3);
        }
        assert!(wrong_refusal(&file, None));
        assert!(wrong_refusal(&file, Some(&Refusal::new(Cause::NoInput, 3))));
        assert!(!wrong_refusal(&file_without(&file), None));
        assert!(wrong_refusal(&file_without(&file), Some(&Refusal::new(Cause::KeyMissing, 3))));
    }

    #[test]
    fn what_is_tried_before_decides() {
        let both = file("service 1 { output 1 to 2: void } service 2 keyed by 7 { input 2: void }");
        assert!(!wrong_refusal(&both, Some(&Refusal::new(Cause::NoInput, 0))));
        assert!(wrong_refusal(&both, Some(&Refusal::new(Cause::KeyMissing, 1))));
        assert!(wrong_refusal(&both, None));
    }
}
