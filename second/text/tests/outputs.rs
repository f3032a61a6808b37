//! What `net check` says of an output that does not fit its input: the two type rows, for an example.

use net::assemble;
use net::sentences::sentence;

/// What is said of a text that 13 refuses.
fn refused(text: &str) -> (Vec<u8>, String) {
    let made = assemble(text).unwrap_or_else(|error| panic!("{error}\n{text}"));
    let refusal = second::check(&made.file).expect_err("a refusal");
    assert_eq!(refusal.number, 13);
    let said = sentence(&made, text, &refusal);
    (made.file, said)
}

/// Rows: Lift 0 to 2, Weight 3 and 4.
const TYPES: &str = "type Lift = void { 1: double, 2?: bool } type Weight = void { 1: double }";

/// The message that breaks the type of the two rows in the command.
fn example(file: &[u8], said: &str) -> Vec<u8> {
    let words: Vec<&str> = said.trim_end_matches('`').split(' ').collect();
    let [first, second] = [2, 1].map(|from_end| words[words.len() - from_end].parse().expect("a row"));
    let mut out = [0; 512];
    let count = counterexample::counterexample(file, first, second, &mut out).expect("no refusal");
    out[..count].to_vec()
}

const CLIPPED: [u8; 24] = [0, 0, 6, 2, 0, 1, 0, 2, 0, 8, 0, 0, 0, 0, 0, 0, 0, 0, 2, 0, 0, 0, 1, 0];

#[test]
fn a_request_that_does_not_fit() {
    let (file, said) = refused(&format!("{TYPES} service 1 {{ input 3: Weight output 3 to 1: Lift }}"));
    let expected = "the output's request type is no subtype of the input's: \
                    T row 0 does not fit T row 3, try `bin/counterexample NETWORK 0 3`";
    assert_eq!(said, expected);
    assert_eq!(example(&file, &said), CLIPPED);
}

/// The reply comes from the input, so its type is the first.
#[test]
fn a_reply_that_does_not_fit() {
    let text =
        format!("{TYPES} service 1 {{ input 3: Weight -> Lift }} service 2 {{ output 3 to 1: Weight -> Weight }}");
    let (file, said) = refused(&text);
    let expected = "the input's reply type is no subtype of the output's: \
                    T row 0 does not fit T row 3, try `bin/counterexample NETWORK 0 3`";
    assert_eq!(said, expected);
    assert_eq!(example(&file, &said), CLIPPED);
}

#[test]
fn without_such_an_input_there_is_nothing_to_try() {
    for (input, said) in [
        ("input 4: Weight", "the service at this location has no such input"),
        ("input 3: Weight -> Lift", "one of output and input is two-way, the other is not"),
    ] {
        let text = format!("{TYPES} service 1 {{ {input} output 3 to 1: Lift }}");
        assert_eq!(refused(&text).1, said);
    }
}
