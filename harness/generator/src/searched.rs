//! What an options search met, read off its book and an outside answer to it.

use crate::book::{Book, Link};

/// A book whose search keeps an origin, with the set and the kept origins.
pub struct Searched {
    pub book: Book,
    /// By link: it is in the set, and it is an origin's.
    is_in: Vec<bool>,
    is_origin: Vec<bool>,
    /// The links of the kept origins, in their order.
    pub kept: Vec<u32>,
}

impl Searched {
    /// None where the answer is a refusal.
    pub fn new(bytes: &[u8], answer: &[u8]) -> Option<Searched> {
        let (set, kept) = std::str::from_utf8(answer).ok()?.strip_prefix("set ")?.trim_end().split_once("\nkept ")?;
        let book = Book::parse(bytes)?;
        let numbers = |line: &str| line.split(' ').map(|link| link.parse().unwrap()).collect::<Vec<u32>>();
        let flags = |links: &[u32]| {
            let mut flags = vec![false; book.links.len()];
            links.iter().for_each(|link| flags[*link as usize] = true);
            flags
        };
        let origins: Vec<u32> = book.origins.iter().map(|origin| origin.link).collect();
        let (is_in, is_origin) = (flags(&numbers(set)), flags(&origins));
        Some(Searched { book, is_in, is_origin, kept: numbers(kept) })
    }

    pub fn is_in(&self, link: u32) -> bool {
        self.is_in[link as usize]
    }

    /// The links of the set that are no origin's, so that the search looks at their previous.
    pub fn passed(&self) -> impl Iterator<Item = (u32, &Link)> {
        let all = (0..).zip(&self.book.links);
        all.filter(|(own, _)| self.is_in(*own) && !self.is_origin[*own as usize])
    }

    /// What a link of the set leads back to: its previous and, only with it, its alternative.
    pub fn pushed(&self, own: u32) -> impl Iterator<Item = u32> {
        let link = self.book.links[own as usize];
        let ends = self.is_origin[own as usize] || link.prev == 0;
        [link.prev, link.prev_alt].into_iter().filter(move |to| !ends && *to != 0)
    }

    /// Whether links of the set lead back to themselves: those from which nothing is left are taken away, one by one.
    pub fn meets_circle(&self) -> bool {
        let all = 0..self.book.links.len() as u32;
        let mut into = vec![0; self.book.links.len()];
        self.passed().flat_map(|(own, _)| self.pushed(own)).for_each(|to| into[to as usize] += 1);
        let mut left = all.clone().filter(|link| self.is_in(*link)).count();
        let mut free: Vec<u32> = all.filter(|link| self.is_in(*link) && into[*link as usize] == 0).collect();
        while let Some(own) = free.pop() {
            left -= 1;
            for to in self.pushed(own) {
                into[to as usize] -= 1;
                if into[to as usize] == 0 {
                    free.push(to);
                }
            }
        }
        left > 0
    }

    /// Whether a link that is passed has an alternative and no previous, so that its alternative is not looked at.
    pub fn meets_lone_alternative(&self) -> bool {
        self.passed().any(|(_, link)| link.prev == 0 && link.prev_alt != 0)
    }

    pub fn keeps_all(&self) -> bool {
        self.kept.len() == self.book.origins.len()
    }
}
