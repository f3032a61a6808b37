//! Whether an answer is right, worked out without the search: by the message reader's rule, the checker's subtype rule
//! and every choice of optional nodes.

use counterexample::LEAST_OUT;
use second::environment::is_subtype;
use second::Network;
use stepper::Tree;

use super::choices::{fewest, least_length};
use super::{type_rows, Pair};

/// What a call gives: the number and place of a refusal, or the message, empty for none.
pub type Answer<'a> = Result<&'a [u8], (u8, usize)>;

/// What is wrong with an answer; of a right one all messages of as few nodes, where each choice was tried.
pub fn judge(pair: &Pair, answer: Answer) -> Result<Option<Vec<Vec<u8>>>, String> {
    let network = match (expected(pair), answer) {
        (Err(expected), Err(refused)) if expected == refused => return Ok(None),
        (Err((number, place)), _) => return Err(format!("number {number} place {place} is right")),
        (Ok(_), Err(_)) => return Err("there is nothing to refuse".into()),
        (Ok(network), Ok(_)) => network,
    };
    let (first, second) = (usize::from(pair.first), usize::from(pair.second));
    let message = answer.unwrap_or_default();
    judge_message(&network, first, second, message)?;
    let fewest = fewest(&network, first, second);
    match fewest.as_ref().map(|fewest| fewest.first().cloned().unwrap_or_default()) {
        Some(least) if least != message => Err(format!("of all choices {least:02x?} is the least")),
        _ => Ok(fewest),
    }
}

/// The network, or number and place of the refusal.
fn expected(pair: &Pair) -> Result<Network, (u8, usize)> {
    if pair.out_size < LEAST_OUT {
        return Err((1, 0));
    }
    let network = Network::read(&pair.file).map_err(|refusal| (refusal.number, refusal.place))?;
    let is_row = |number: u16| type_rows(&pair.file).is_some_and(|rows| usize::from(number) < rows);
    if is_row(pair.first) && is_row(pair.second) {
        Ok(network)
    } else {
        Err((15, 0))
    }
}

fn judge_message(network: &Network, first: usize, second: usize, message: &[u8]) -> Result<(), String> {
    if is_subtype(&network.write_out(first), &network.write_out(second)) != message.is_empty() {
        return Err("none is right exactly for a subtype".into());
    }
    if message.is_empty() {
        return Ok(());
    }
    let nodes = second::message::nodes(message).ok_or("these bytes are no message")?;
    let tree = Tree::read_message(message).ok_or("these bytes are no message")?;
    if !tree.fits(network, first) {
        return Err("the message does not fit the first type".into());
    }
    if tree.fits(network, second) {
        return Err("the message fits the second type".into());
    }
    let least = |node: &second::message::MessageNode| {
        node.value.len() == least_length(node.basic) && message[node.value.clone()].iter().all(|&byte| byte == 0)
    };
    if !nodes.iter().all(least) {
        return Err("a value is not the least".into());
    }
    Ok(())
}
