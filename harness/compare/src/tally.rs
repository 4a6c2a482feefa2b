//! Counts over the answers of a run.

use crate::kinds::Kind;
use outside::{Answers, Held};

#[derive(Default)]
pub struct Tally {
    pub held: Held,
    accepted: u64,
    /// How often each number from 1 to 16 was the answer; what is no answer at 0.
    refused: [u64; 17],
    with_split: u64,
    with_join: u64,
    with_finishes: u64,
    nodes: u64,
    most_nodes: u64,
}

impl Tally {
    pub fn count(&mut self, kind: Kind, answers: &Answers) {
        self.held.count(answers, answers.agree());
        if kind == Kind::Roots {
            self.accepted += 1;
            return;
        }
        let answer = answers.given();
        let end = answer.iter().position(|byte| *byte == b'\n').unwrap_or(answer.len());
        let head = String::from_utf8_lossy(&answer[..end]);
        let words: Vec<&str> = head.split(' ').collect();
        let number = |place: usize| words.get(place).and_then(|word| word.parse::<u64>().ok()).unwrap_or(0);
        if words[0] == "refused" {
            self.refused[number(1).min(16) as usize] += 1;
        } else if words[0] == "panic" {
            self.refused[0] += 1;
        } else {
            self.accepted += 1;
            self.nodes += number(1);
            self.most_nodes = self.most_nodes.max(number(1));
            self.with_split += (number(5) > 0) as u64;
            self.with_join += (number(7) > 0) as u64;
            self.with_finishes += (number(9) > 1) as u64;
        }
    }

    pub fn add(&mut self, other: &Tally) {
        self.held.add(&other.held);
        self.accepted += other.accepted;
        for (sum, count) in self.refused.iter_mut().zip(other.refused) {
            *sum += count;
        }
        self.with_split += other.with_split;
        self.with_join += other.with_join;
        self.with_finishes += other.with_finishes;
        self.nodes += other.nodes;
        self.most_nodes = self.most_nodes.max(other.most_nodes);
    }

    pub fn print(&self, kind: Kind, seconds: f64) {
        println!("{} {} in {seconds:.1} s", self.held.items, kind.name());
        println!("  accepted {}", self.accepted);
        let refused = self.refused.iter().enumerate().skip(1).filter(|(_, count)| **count > 0);
        for (number, count) in refused {
            println!("  refused {number:2} {count}");
        }
        if self.refused[0] > 0 {
            println!("  panics {}", self.refused[0]);
        }
        if kind == Kind::Books {
            println!(
                "  accepted with a split {}, with a join {}, with more than one finish {}",
                self.with_split, self.with_join, self.with_finishes
            );
        }
        if kind == Kind::Books || kind == Kind::Tables {
            let mean = self.nodes as f64 / self.accepted.max(1) as f64;
            println!("  nodes: mean {mean:.1}, most {}", self.most_nodes);
        }
        println!("  {}", self.held);
    }
}
