//! Options: which links a run may take, and which origins are kept.

use crate::book::Book;
use crate::{refuse_if, Answer};

pub struct Options {
    /// By link: it is in the set.
    pub set: Vec<bool>,
    /// By link: it is a destination.
    pub destination: Vec<bool>,
    /// The links of the kept origins. Each moves "to the end of the kept part", so
    /// they stand in the order in which they were met.
    pub kept: Vec<u32>,
}

/// "Destination links go on a stack; each popped link not yet in the set enters
/// it." Row 8: "destination 0, or no origin kept".
pub fn options(book: &Book) -> Answer<Options> {
    let mut options = Options {
        set: vec![false; book.links.len()],
        destination: vec![false; book.links.len()],
        kept: Vec::new(),
    };
    refuse_if(book.destinations.contains(&0), 8)?;
    for &link in &book.destinations {
        options.destination[link as usize] = true;
    }
    let mut stack = book.destinations.clone();
    while let Some(link) = stack.pop() {
        if !std::mem::replace(&mut options.set[link as usize], true) {
            options.enter(book, link, &mut stack);
        }
    }
    refuse_if(options.kept.is_empty(), 8)?;
    Ok(options)
}

impl Options {
    /// "only if there is none [no origin of that link] is a real (nonzero) previous
    /// pushed, and its alternative only after a real previous"
    fn enter(&mut self, book: &Book, link: u32, stack: &mut Vec<u32>) {
        let here = book.link(link);
        if book.starts_at(link) {
            self.kept.push(link);
        } else if here.prev != 0 {
            stack.push(here.prev);
            if here.prev_alt != 0 {
                stack.push(here.prev_alt);
            }
        }
    }
}
