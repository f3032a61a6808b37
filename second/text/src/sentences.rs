//! What `net check` says of a refusal.

use second::typing::met_input;
use second::{Cause, Network, Refusal};

use crate::assemble::Assembled;
use crate::keys;

/// One line for a fitter.
pub fn sentence(made: &Assembled, text: &str, refusal: &Refusal) -> String {
    let told = match refusal.number {
        13 => unfit_output(made, refusal),
        23 => keys::unfit_input(made, text, refusal.place),
        _ => None,
    };
    told.unwrap_or(refusal.cause.sentence().into())
}

/// The two type rows of an output and the input that it meets, if it is these that do not fit.
fn unfit_output(made: &Assembled, refusal: &Refusal) -> Option<String> {
    let network = Network::read(&made.file).ok()?;
    let output = network.operations.get(refusal.place)?;
    let input = network.operations.get(met_input(&network, output)?)?;
    let (first, second) = match refusal.cause {
        Cause::InputRequest => (output.request, input.request),
        Cause::InputReply => (input.reply?, output.reply?),
        _ => return None,
    };
    let rows = format!("T row {first} does not fit T row {second}");
    Some(format!("{}: {rows}, try `bin/counterexample NETWORK {first} {second}`", refusal.cause.sentence()))
}
