//! What the two outside answers say to an item, and how many items were held to them.

use std::fmt;

/// What `reference` and `plain` say to one item.
pub struct Answers {
    /// None where the Rust has no number: the item is then held to `plain` alone.
    pub reference: Option<Vec<u8>>,
    pub plain: Vec<u8>,
}

impl Answers {
    pub fn new(reference: Vec<u8>, plain: Vec<u8>) -> Answers {
        Answers { reference: (reference != reference::NO_ANSWER).then_some(reference), plain }
    }

    /// The reference's answer, and `plain`'s where it has none.
    pub fn given(&self) -> &[u8] {
        self.reference.as_ref().unwrap_or(&self.plain)
    }

    /// Whether this is `plain`'s answer, and the reference's where it has one.
    pub fn are(&self, answer: &[u8]) -> bool {
        self.plain == answer && self.reference.as_ref().is_none_or(|reference| reference == answer)
    }

    /// Whether the two agree, where the reference has an answer.
    pub fn agree(&self) -> bool {
        self.are(&self.plain)
    }
}

/// How many items were held to the outside answers, and how that went.
#[derive(Default)]
pub struct Held {
    pub items: u64,
    unanswered: u64,
    pub differences: u64,
}

impl Held {
    /// An item with these answers was held to them.
    pub fn count(&mut self, answers: &Answers, is_same: bool) {
        self.items += 1;
        self.unanswered += answers.reference.is_none() as u64;
        self.differences += !is_same as u64;
    }

    pub fn add(&mut self, other: &Held) {
        self.items += other.items;
        self.unanswered += other.unanswered;
        self.differences += other.differences;
    }

    /// The differences, and one more if nothing at all was held to the reference.
    pub fn faults(&self) -> u64 {
        self.differences + self.is_unheld() as u64
    }

    fn is_unheld(&self) -> bool {
        self.items > 0 && self.unanswered == self.items
    }
}

impl fmt::Display for Held {
    fn fmt(&self, f: &mut fmt::Formatter) -> fmt::Result {
        let Held { items, unanswered, differences } = self;
        write!(f, "{differences} differences, the reference has no answer for {unanswered} of {items}")?;
        if self.is_unheld() {
            write!(f, ": NOTHING WAS HELD TO IT")?;
        }
        Ok(())
    }
}

#[cfg(test)]
mod tests {
    use super::*;

    fn answers(reference: &[u8], plain: &[u8]) -> Answers {
        Answers::new(reference.to_vec(), plain.to_vec())
    }

    #[test]
    fn both_answer() {
        let same = answers(b"refused 10\n", b"refused 10\n");
        assert!(same.agree() && same.are(b"refused 10\n") && !same.are(b"refused 11\n"));
        let other = answers(b"refused 10\n", b"refused 11\n");
        assert!(!other.agree() && !other.are(b"refused 10\n") && !other.are(b"refused 11\n"));
        assert_eq!(other.given(), b"refused 10\n");
    }

    #[test]
    fn one_has_no_answer() {
        let one = answers(reference::NO_ANSWER, b"refused 10\n");
        assert!(one.agree() && one.are(b"refused 10\n") && !one.are(b"refused 11\n"));
        assert!(!one.are(reference::NO_ANSWER));
        assert_eq!(one.given(), b"refused 10\n");
    }

    #[test]
    fn faults() {
        let (both, one) = (answers(b"a", b"a"), answers(reference::NO_ANSWER, b"a"));
        let mut held = Held::default();
        assert_eq!(held.faults(), 0);
        held.count(&one, true);
        assert_eq!(held.faults(), 1);
        held.count(&both, true);
        assert_eq!(held.faults(), 0);
        held.count(&one, false);
        assert_eq!(held.faults(), 1);
        assert_eq!(held.to_string(), "1 differences, the reference has no answer for 2 of 3");
    }
}
