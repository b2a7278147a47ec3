//! Why the store refuses a begin's steps as they stand (3) or for an item that
//! is not in the table (2). Both show in the sheet alone.

use crate::names::Names;
use crate::sheet::{Step, VALUES};

pub fn not_a_program(steps: &[Step]) -> Option<String> {
    match steps.len() {
        0 => return Some("there is no step".to_string()),
        1..=8 => (),
        count => return Some(format!("{count} steps are more than 8")),
    }
    (1..)
        .zip(steps)
        .find_map(|(position, step)| match step.kind {
            Step::NEED | Step::ADD | Step::SET if !VALUES.contains(&step.operand) => Some(format!(
                "step {position} has {}, not from -9999 to 9999",
                step.operand
            )),
            Step::NEED..=Step::COPY => None,
            kind => Some(format!("step {position} is of unknown kind {kind:02X}")),
        })
}

pub fn missing_item(names: &Names, steps: &[Step]) -> Option<String> {
    let named = steps.iter().flat_map(|step| {
        let source = (step.kind == Step::COPY).then_some(step.operand);
        [Some(i16::from(step.item)), source].into_iter().flatten()
    });
    named
        .into_iter()
        .find(|&item| !names.has_item(item))
        .map(|item| format!("there is no item {item}"))
}
