//! A condition as the program prints it, and in words.

/// "Hold 1 completes" or "hold 1 does not".
#[derive(Clone, Copy, Debug, PartialEq, Eq)]
pub struct Tag {
    pub hold: u16,
    pub completes: bool,
}

/// The products of a condition; a product without tags is `*`.
#[derive(Clone, Debug, PartialEq, Eq)]
pub struct Condition(pub Vec<Vec<Tag>>);

impl Condition {
    pub fn read(text: &str) -> Option<Condition> {
        if text == "*" {
            return Some(Condition(vec![Vec::new()]));
        }
        let product = |text: &str| text.split('&').map(Tag::read).collect();
        let products: Option<_> = text.split('|').map(product).collect();
        products.map(Condition)
    }

    pub fn is_always(&self) -> bool {
        self.0.iter().any(Vec::is_empty)
    }

    /// The condition's only tag, if it has just one.
    pub fn only_tag(&self) -> Option<Tag> {
        match self.0[..] {
            [ref product] => match product[..] {
                [tag] => Some(tag),
                _ => None,
            },
            _ => None,
        }
    }

    /// What follows "if"; nothing if the condition always holds.
    pub fn words(&self) -> String {
        let products: Vec<_> = self.0.iter().map(|tags| product_words(tags)).collect();
        products.join(", or ")
    }
}

impl Tag {
    fn read(text: &str) -> Option<Tag> {
        let (completes, tag) = match text.strip_prefix('!') {
            Some(tag) => (false, tag),
            None => (true, text),
        };
        let number = tag.strip_prefix('T')?;
        let hold: u16 = number.parse().ok()?;
        // Only the one decimal form of a number that is given is a tag.
        (hold > 0 && hold.to_string() == number).then_some(Tag { hold, completes })
    }
}

/// "Hold 1 completes and neither hold 2 nor hold 3 does": never "holds 2 and 3
/// do not", which could also mean that only one of them does.
fn product_words(tags: &[Tag]) -> String {
    let holds = |completes| -> Vec<u16> {
        let of_kind = tags.iter().filter(|tag| tag.completes == completes);
        of_kind.map(|tag| tag.hold).collect()
    };
    let completing = match holds(true)[..] {
        [] => None,
        [hold] => Some(format!("hold {hold} completes")),
        ref several => Some(format!("holds {} complete", listed(several))),
    };
    let aborting = |does: &str, does_not: &str| match holds(false)[..] {
        [] => None,
        [hold] => Some(format!("hold {hold} {does_not}")),
        [one, other] => Some(format!("neither hold {one} nor hold {other} {does}")),
        ref several => Some(format!("none of holds {} {does}", listed(several))),
    };
    let parts = match completing {
        None => [None, aborting("completes", "does not complete")],
        completing => [completing, aborting("does", "does not")],
    };
    parts
        .into_iter()
        .flatten()
        .collect::<Vec<_>>()
        .join(" and ")
}

/// "1, 2 and 3".
fn listed(holds: &[u16]) -> String {
    let mut holds: Vec<_> = holds.iter().map(u16::to_string).collect();
    let last = holds.pop().unwrap_or_default();
    format!("{} and {last}", holds.join(", "))
}
