//! Strings that decide the answer to a file or message: nothing but a broken one refuses it. Worked out without the
//! checker's rule for strings.

use second::tables::{ExpressionRow, Section, Tables};
use second::{Basic, Network, Refusal};

use super::held::{in_constants, in_nodes, mend, seen};
use super::Seen;

/// What the string constants hold of a file that passes 2 to 5 but for them.
pub fn constants(file: &[u8]) -> Option<Seen> {
    let constants = in_constants(file);
    let mut mended = file.to_vec();
    mend(&mut mended, &constants);
    Network::read(&mended).is_ok().then(|| seen(file, &constants))
}

/// What the strings hold of a message that has a part at the path but for them.
pub fn message(message: &[u8], ids: [u16; 4]) -> Option<Seen> {
    let strings = in_nodes(message);
    (!second::part_range(&mended(message), ids).is_empty()).then(|| seen(message, &strings))
}

/// A message with letters in its broken strings.
pub fn mended(message: &[u8]) -> Vec<u8> {
    let mut mended = message.to_vec();
    mend(&mut mended, &in_nodes(message));
    mended
}

/// Whether the string constants decide, and the refusal is another than theirs: 4 at the start field of the first row
/// with a broken one, none without.
pub fn wrong_refusal(file: &[u8], refusal: Option<&Refusal>) -> bool {
    let found = refusal.filter(|refusal| refusal.number <= 5).map(|refusal| (refusal.number, refusal.place));
    constants(file).is_some() && found != first_broken(file).map(|place| (4, place))
}

/// Whether the strings of a message decide, and the part is not empty exactly if one is broken.
pub fn wrong_part(bytes: &[u8], ids: [u16; 4], empty: bool) -> bool {
    message(bytes, ids).is_some_and(|seen| seen.is_broken() != empty)
}

/// The start field of the first string constant that is broken.
fn first_broken(file: &[u8]) -> Option<usize> {
    let (tables, layout) = Tables::read(file).ok()?;
    let is_broken = |row: &ExpressionRow| {
        let [start, length, _] = row.fields.map(usize::from);
        let text =
            tables.data.get(start..start + length).filter(|_| (row.kind, row.basic) == (0, Basic::String.byte()));
        text.is_some_and(|text| Seen::of(text).is_broken())
    };
    let row = tables.expressions.iter().position(is_broken)?;
    Some(layout.row(Section::Expressions, row) + 2)
}

#[cfg(test)]
mod tests {
    use super::*;
    use second::Cause;

    /// Two constants of three bytes, of which the second is not used.
    fn file(first: &[u8], other: &[u8]) -> Vec<u8> {
        let text = "expression $a = \"abc\" expression $b = \"abc\" service 1 { client set 5 = $a }";
        let mut file = net::assemble(text).expect("a text").file;
        let places = in_constants(&file);
        file[places[0].clone()].copy_from_slice(first);
        file[places[1].clone()].copy_from_slice(other);
        file
    }

    const BROKEN: &[u8] = b"a\xC3b";

    #[test]
    fn the_first_broken_constant_is_to_be_refused_at_its_start_field() {
        let rows = 8; // one path
        for (file, place) in [
            (file(BROKEN, b"abc"), Some(rows + 2)),
            (file(b"abc", BROKEN), Some(rows + 10)),
            (file(b"abc", b"abc"), None),
        ] {
            assert_eq!(constants(&file).map(|seen| seen.is_broken()), Some(place.is_some()));
            for at in 0..100 {
                let refusal = Refusal::new(Cause::BrokenText, at);
                assert_eq!(wrong_refusal(&file, Some(&refusal)), place != Some(at));
            }
            assert_eq!(wrong_refusal(&file, None), place.is_some());
            assert_eq!(wrong_refusal(&file, Some(&Refusal::new(Cause::ReadMissing, 0))), place.is_some());
            assert!(wrong_refusal(&file, Some(&Refusal::new(Cause::TypeSize, 0))));
        }
    }

    #[test]
    fn no_constant_decides_where_something_else_is_refused() {
        let mut file = file(BROKEN, b"abc");
        file[8 + 16 + 1] = 1; // the unused byte of the B row
        assert_eq!(constants(&file), None);
        assert!(!wrong_refusal(&file, None));
    }

    #[test]
    fn a_part_is_to_be_empty_exactly_for_a_broken_string() {
        let bytes = |text: &[u8]| [&[0, 0, 6, 2, 0, 3, 0, 4, 0, 3][..], text, &[7, 0, 0, 0, 1, 1]].concat();
        let (right, broken) = (bytes(b"abc"), bytes(BROKEN));
        for ids in [[3, 0, 0, 0], [7, 0, 0, 0]] {
            assert!(!wrong_part(&right, ids, false) && wrong_part(&right, ids, true));
            assert!(wrong_part(&broken, ids, false) && !wrong_part(&broken, ids, true));
        }
        assert!(!wrong_part(&broken, [8, 0, 0, 0], true) && !wrong_part(&right, [8, 0, 0, 0], true));
    }
}
