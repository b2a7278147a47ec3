//! Transaction programs: reading, judging and running their steps.

use crate::polyvalue::is_value;
use crate::refusal::Refusal;

pub const MOST_ITEMS: usize = 32;
const MOST_STEPS: usize = 8;
const STEP_BYTES: usize = 4;

/// A value for each item number; those past the count are not looked at.
pub type Values = [i16; MOST_ITEMS];

#[derive(Clone, Copy, Debug, PartialEq, Eq)]
enum Action {
    Need(i16),
    Add(i16),
    Set(i16),
    Copy { source: usize },
}

#[derive(Clone, Copy, Debug, PartialEq, Eq)]
struct Step {
    item: usize,
    action: Action,
}

#[derive(Clone, Debug, PartialEq, Eq)]
pub struct Program {
    steps: Vec<Step>,
}

impl Program {
    /// Refuses with 3 over all steps before 2 over all steps.
    pub fn read(bytes: &[u8], items: usize) -> Result<Program, Refusal> {
        let count = bytes.len() / STEP_BYTES;
        if !bytes.len().is_multiple_of(STEP_BYTES) || count == 0 || count > MOST_STEPS {
            return Err(Refusal::BadProgram);
        }
        let program = Program {
            steps: bytes
                .chunks_exact(STEP_BYTES)
                .map(Step::read)
                .collect::<Result<_, _>>()?,
        };
        if program.named_items().any(|item| item >= items) {
            return Err(Refusal::NoSuchItem);
        }
        Ok(program)
    }

    /// All items named by any step, each once, rising.
    pub fn touched_items(&self) -> Vec<usize> {
        let mut items: Vec<usize> = self.named_items().collect();
        items.sort_unstable();
        items.dedup();
        items
    }

    /// The values after the program, or `None` if it declines. The values are
    /// taken by copy, so nothing of a declining program takes effect.
    pub fn run(&self, mut values: Values) -> Option<Values> {
        for step in &self.steps {
            let old = values[step.item];
            values[step.item] = match step.action {
                Action::Need(least) if old < least => return None,
                Action::Need(_) => old,
                // No overflow: both are within −9,999 to 9,999.
                Action::Add(more) => Some(old + more).filter(|&sum| is_value(sum))?,
                Action::Set(value) => value,
                Action::Copy { source } => values[source],
            };
        }
        Some(values)
    }

    /// A Copy's source is named, and so touched, like its item.
    fn named_items(&self) -> impl Iterator<Item = usize> + '_ {
        self.steps.iter().flat_map(|step| {
            let source = match step.action {
                Action::Copy { source } => Some(source),
                _ => None,
            };
            std::iter::once(step.item).chain(source)
        })
    }
}

impl Step {
    fn read(bytes: &[u8]) -> Result<Step, Refusal> {
        let &[kind, item, high, low] = bytes else {
            return Err(Refusal::BadProgram);
        };
        let operand = i16::from_be_bytes([high, low]);
        let action = match kind {
            1 if is_value(operand) => Action::Need(operand),
            2 if is_value(operand) => Action::Add(operand),
            3 if is_value(operand) => Action::Set(operand),
            // An item number, judged as one. Taken without sign, a negative
            // operand is far past any table, as it has to be.
            4 => Action::Copy {
                source: usize::from(u16::from_be_bytes([high, low])),
            },
            _ => return Err(Refusal::BadProgram),
        };
        Ok(Step {
            item: usize::from(item),
            action,
        })
    }
}

/// The bytes of steps: kind, item, operand.
pub fn steps(steps: &[(u8, u8, i16)]) -> Vec<u8> {
    steps
        .iter()
        .flat_map(|&(kind, item, operand)| {
            let [high, low] = operand.to_be_bytes();
            [kind, item, high, low]
        })
        .collect()
}
