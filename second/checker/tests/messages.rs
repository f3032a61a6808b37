//! The message reader on the stored messages: examples/messages/NAME.hex, and its answers in NAME.out.

use std::path::PathBuf;

fn folder() -> PathBuf {
    PathBuf::from(env!("CARGO_MANIFEST_DIR")).join("../../examples/messages")
}

/// The bytes of a line in hexadecimal digits, without its blanks and its comment.
fn bytes(line: &str) -> Vec<u8> {
    let digits: Vec<u32> = line.chars().take_while(|&sign| sign != '#').filter_map(|sign| sign.to_digit(16)).collect();
    digits.chunks(2).map(|pair| (16 * pair[0] + pair[1]) as u8).collect()
}

/// For a line with a path and a message the line's number, the part's length and its bytes.
fn answer((index, line): (usize, &str)) -> Option<String> {
    let bytes = bytes(line);
    let (path, message) = bytes.split_at_checked(8)?;
    let ids = std::array::from_fn(|step| u16::from_le_bytes([path[2 * step], path[2 * step + 1]]));
    let part = second::part(message, ids);
    let digits: String = part.iter().map(|byte| format!("{byte:02x}")).collect();
    Some(format!("{} {} {digits}\n", index + 1, part.len()))
}

#[test]
fn each_part_is_as_stored() {
    let mut files = 0;
    for entry in std::fs::read_dir(folder()).expect("examples/messages") {
        let path = entry.expect("an entry").path();
        if path.extension().is_some_and(|found| found == "hex") {
            let lines = std::fs::read_to_string(&path).expect("messages");
            let answers: String = lines.lines().enumerate().filter_map(answer).collect();
            let stored = std::fs::read_to_string(path.with_extension("out")).expect("answers");
            assert_eq!(answers, stored, "{}", path.display());
            files += 1;
        }
    }
    assert!(files > 1, "{files}");
}
