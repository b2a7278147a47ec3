//! A sheet as text, in the grammar that `text` reads.

use crate::names::Names;
use crate::sheet::{Event, Sheet, Step};

/// The whole text, with the names that numbers give.
pub fn sheet(sheet: &Sheet) -> String {
    let names = Names::numbered(sheet);
    let mut lines = Vec::new();
    for (number, code) in (0..).zip(&sheet.district_codes) {
        lines.push(format!("district {} {code}", names.district(number)));
    }
    for (number, item) in (0..).zip(&sheet.items) {
        let district = names.district(item.district);
        lines.push(format!(
            "item {} at {district} = {}",
            names.item(number),
            item.value
        ));
    }
    lines.extend(sheet.events.iter().map(|each| event(&names, each)));
    lines.join("\n") + "\n"
}

pub fn event(names: &Names, event: &Event) -> String {
    match *event {
        Event::Begin(ref steps) if steps.is_empty() => "begin".to_string(),
        Event::Begin(ref steps) => {
            let steps: Vec<_> = steps.iter().map(|&each| step(names, each)).collect();
            format!("begin {}", steps.join("; "))
        }
        Event::Ready { hold, district } => format!("ready {hold} {}", names.district(district)),
        Event::GiveUp { hold, district } => format!("give up {hold} {}", names.district(district)),
        Event::Complete { hold } => format!("complete {hold}"),
        Event::Abort { hold } => format!("abort {hold}"),
        Event::Hear { hold, district } => format!("hear {hold} {}", names.district(district)),
        Event::Show { item } => format!("show {}", names.item(item)),
    }
}

/// A step that has no words, an unknown kind or a copy from no item number,
/// is printed as its bytes.
fn step(names: &Names, step: Step) -> String {
    let item = names.item(step.item);
    let operand = step.operand;
    match (step.kind, u8::try_from(operand)) {
        (Step::NEED, _) => format!("need {operand} in {item}"),
        (Step::ADD, _) => format!("add {operand} to {item}"),
        (Step::SET, _) => format!("set {item} to {operand}"),
        (Step::COPY, Ok(source)) => format!("copy {} to {item}", names.item(source)),
        _ => {
            let [kind, item, high, low] = step.bytes();
            format!("step {kind:02X} {item:02X} {high:02X}{low:02X}")
        }
    }
}
