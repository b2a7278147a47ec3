//! A line of the program's output, read as the answer to its event.

use crate::condition::Condition;
use crate::sheet::Event;

#[derive(Clone, Debug, PartialEq, Eq)]
pub enum Answer {
    Done,
    Begun { hold: u16, grant: u8 },
    Shown(Vec<Pair>),
    Refused(u8),
}

#[derive(Clone, Debug, PartialEq, Eq)]
pub struct Pair {
    pub value: i16,
    pub condition: Condition,
}

impl Answer {
    /// `None` if the line is not one that document 01 lays out for the event.
    pub fn read(line: &str, position: usize, event: &Event) -> Option<Answer> {
        let mut fields = line.split(' ');
        if fields.next()? != position.to_string() {
            return None;
        }
        let number: u8 = decimal(fields.next()?)?;
        let fields: Vec<_> = fields.collect();
        match (number, event, &fields[..]) {
            (0, Event::Begin(_), [hold, grant]) => Some(Answer::Begun {
                hold: decimal(hold)?,
                grant: decimal(grant).filter(|grant| *grant <= 2)?,
            }),
            (0, Event::Show { .. }, [count, pairs @ ..]) => {
                let count: usize = decimal(count)?;
                let pairs: Option<Vec<_>> = pairs.iter().map(|text| pair(text)).collect();
                pairs
                    .filter(|pairs| pairs.len() == count && is_polyvalue(pairs))
                    .map(Answer::Shown)
            }
            (0, Event::Begin(_) | Event::Show { .. }, _) => None,
            (0, _, []) => Some(Answer::Done),
            (1..=16, _, []) => Some(Answer::Refused(number)),
            _ => None,
        }
    }
}

/// 1 to 8 pairs, values strictly rising; only a pair that stands alone always
/// applies.
fn is_polyvalue(pairs: &[Pair]) -> bool {
    let alone = pairs.len() == 1;
    (1..=8).contains(&pairs.len())
        && pairs.windows(2).all(|two| two[0].value < two[1].value)
        && pairs.iter().all(|pair| pair.condition.is_always() == alone)
}

fn pair(text: &str) -> Option<Pair> {
    let (value, condition) = text.split_once(':')?;
    Some(Pair {
        value: decimal(value)?,
        condition: Condition::read(condition)?,
    })
}

/// A number in the one form that the program prints it in.
pub fn decimal<T: std::str::FromStr + ToString>(text: &str) -> Option<T> {
    let number: T = text.parse().ok()?;
    (number.to_string() == text).then_some(number)
}
