//! What `net check` says of keyed services, in the words of the text: what is wrong with an input (23), and where a
//! client waits for what never comes.

use second::network::Behaviour;
use second::tables::Section;
use second::{Basic, Network};

use crate::assemble::Assembled;
use crate::source::{line_and_column, Scanner, Spot};

/// A remark on a text that may be accepted.
#[derive(Clone, PartialEq, Eq, Debug)]
pub struct Note {
    pub line: usize,
    pub column: usize,
    pub message: String,
}

/// What keeps an input from having its service's key.
pub(crate) fn unfit_input(made: &Assembled, text: &str, row: usize) -> Option<String> {
    let network = Network::read(&made.file).ok()?;
    let input = network.operations.get(row)?;
    let (service, key) = service_words(text, made.spot(Section::Services, input.service)?);
    let name = input_word(text, made.spot(Section::Operations, row)?);
    let child = network.child(input.request, network.services[input.service].key?);
    let wrong = match child.map(|child| (child.mandatory, child.basic)) {
        None => format!("has no child {key}"),
        Some((_, Basic::Int)) => format!("has {key} only as an optional child"),
        Some((true, basic)) => format!("has {key} as a {}, not an int", basic.name()),
        Some((false, basic)) => format!("has {key} only as an optional child, and as a {}, not an int", basic.name()),
    };
    Some(format!("service {service} is keyed by {key}, but the request type of its input {name} {wrong}"))
}

/// The names in `service NAME keyed by NAME`.
fn service_words(text: &str, spot: Spot) -> (&str, &str) {
    let mut scanner = Scanner::at(text, spot);
    let [_service, name, _keyed, _by, key] = [(); 5].map(|()| scanner.take_name());
    (name, key)
}

/// The name in `input NAME`, before which a row label may stand.
fn input_word(text: &str, spot: Spot) -> &str {
    let mut scanner = Scanner::at(text, spot);
    if scanner.takes("@") {
        scanner.take_name();
    }
    let [_input, name] = [(); 2].map(|()| scanner.take_name());
    name
}

/// A note for each keyed service whose client receives, at its first input in the text.
pub fn notes(made: &Assembled, text: &str) -> Vec<Note> {
    let Ok(network) = Network::read(&made.file) else { return Vec::new() };
    let keyed = network.services.iter().enumerate().filter(|(_, service)| service.key.is_some());
    let waiting = keyed.filter_map(|(row, service)| {
        let inputs = inputs_below(&network, service.client?);
        let spot = inputs.into_iter().filter_map(|row| made.spot(Section::Behaviours, row)).min()?;
        let (line, column) = line_and_column(text, spot);
        let (name, _) = service_words(text, made.spot(Section::Services, row)?);
        let message = format!(
            "note: service {name} is keyed: nothing is ever queued at its client, so this input waits for good"
        );
        Some(Note { line, column, message })
    });
    waiting.collect()
}

/// The rows that receive, of a row and all below it.
fn inputs_below(network: &Network, root: usize) -> Vec<usize> {
    let mut rows = vec![root];
    let mut next = 0;
    while next < rows.len() {
        rows.extend(network.behaviours[rows[next]].parts());
        next += 1;
    }
    rows.retain(|&row| matches!(network.behaviours[row], Behaviour::OneWay { .. } | Behaviour::RequestResponse { .. }));
    rows
}
