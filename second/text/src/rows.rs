//! The rows of a network with their numbers, as moves name them: services, operations and behaviours.

use std::fmt::Write;

use second::network::{Behaviour, Direction, Network, Operation, Service};
use second::refusal::Refusal;

/// A line for each row of S, O and B.
pub fn rows(file: &[u8]) -> Result<String, Refusal> {
    let network = Network::read(file)?;
    let mut text = String::new();
    for (row, service) in network.services.iter().enumerate() {
        let _ = writeln!(text, "service {row}: {}", service_line(service));
    }
    for (row, operation) in network.operations.iter().enumerate() {
        let _ = writeln!(text, "operation {row}: {}", operation_line(operation));
    }
    for (row, behaviour) in network.behaviours.iter().enumerate() {
        let _ = writeln!(text, "row {row}: {}", behaviour_line(behaviour));
    }
    Ok(text)
}

fn row_or_none(row: Option<usize>) -> String {
    row.map_or("none".to_string(), |row| row.to_string())
}

fn service_line(service: &Service) -> String {
    let (starter, client) = (row_or_none(service.starter), row_or_none(service.client));
    let key = service.key.map_or(String::new(), |key| format!(", keyed by {key}"));
    format!("location {}, starter {starter}, client {client}{key}", service.location)
}

fn operation_line(operation: &Operation) -> String {
    let kind = if operation.reply.is_some() { "two-way" } else { "one-way" };
    match operation.direction {
        Direction::In => format!("service {}, in, {kind}, id {}", operation.service, operation.id),
        Direction::Out => {
            format!("service {}, out, {kind}, id {}, location {}", operation.service, operation.id, operation.location)
        }
    }
}

fn behaviour_line(behaviour: &Behaviour) -> String {
    match behaviour {
        Behaviour::Nil => "nil".to_string(),
        Behaviour::OneWay { operation, .. } => format!("one-way, operation {operation}"),
        Behaviour::RequestResponse { operation, body, .. } => {
            format!("request-response, operation {operation}, body {body}")
        }
        Behaviour::Notification { operation, .. } => format!("notification, operation {operation}"),
        Behaviour::SolicitResponse { operation, .. } => format!("solicit-response, operation {operation}"),
        Behaviour::If { then, otherwise, .. } => format!("if, then {then}, else {otherwise}"),
        Behaviour::While { body, .. } => format!("while, body {body}"),
        Behaviour::Sequence(a, b) => format!("sequence {a}, {b}"),
        Behaviour::Parallel(a, b) => format!("parallel {a}, {b}"),
        Behaviour::Assign { .. } => "assign".to_string(),
        Behaviour::Choice { branches } => format!("choice, branches {} to {}", branches.start, branches.end - 1),
        Behaviour::Branch { input, then } => format!("branch, input {input}, then {then}"),
    }
}
