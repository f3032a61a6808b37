//! The text that program `check` prints.

use std::fmt::Write;

use crate::environment::Environment;
use crate::refusal::Refusal;
use crate::typing::ServiceEnvironments;

/// `accepted` and a line for each environment node, or `refused N P`.
pub fn report(verdict: &Result<Vec<ServiceEnvironments>, Refusal>) -> String {
    let services = match verdict {
        Ok(services) => services,
        Err(refusal) => return format!("{refusal}\n"),
    };
    let mut text = String::from("accepted\n");
    for (row, service) in services.iter().enumerate() {
        for (letter, environment) in [('S', &service.starter), ('C', &service.client)] {
            if let Some(environment) = environment {
                lines(&mut text, row, letter, environment);
            }
        }
    }
    text
}

fn lines(text: &mut String, row: usize, letter: char, environment: &Environment) {
    environment.visit(|path, node| {
        let path = path.iter().map(u16::to_string).collect::<Vec<_>>().join(".");
        let mark = if node.mandatory { '!' } else { '?' };
        writeln!(text, "{row} {letter} {path} {mark} {}", node.basic.name()).expect("a string takes any text");
    });
}
