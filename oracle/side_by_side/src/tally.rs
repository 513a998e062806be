//! What was asked, and how it came out.

use std::collections::BTreeMap;

use crate::edges::{EDGES, OFFERS};

#[derive(Default)]
pub struct Tally {
    calls: BTreeMap<&'static str, u64>,
    refused: BTreeMap<usize, u64>,
    answers: BTreeMap<&'static str, u64>,
    edges: BTreeMap<String, [u64; 2]>,
    apart: Vec<(usize, String)>,
    counted: u64,
}

impl Tally {
    pub fn called(&mut self, name: &'static str, number: usize) {
        *self.calls.entry(name).or_default() += 1;
        if number != 0 {
            *self.refused.entry(number).or_default() += 1;
        }
    }

    pub fn seen(&mut self, answer: &'static str) {
        *self.answers.entry(answer).or_default() += 1;
    }

    /// A bound that was asked on this side of it or past it.
    pub fn edge(&mut self, name: String, past: bool) {
        self.edges.entry(name).or_default()[usize::from(past)] += 1;
    }

    /// The outcome of a case of this size; of those apart the smallest are shown.
    pub fn case(&mut self, size: usize, outcome: Result<(), String>) {
        self.counted += 1;
        if let Err(text) = outcome {
            self.apart.push((size, text));
        }
    }

    /// Writes all of it; whether none was apart and, of a long run, every number was reached and every bound asked on both sides.
    pub fn report(mut self, long: bool) -> bool {
        let list =
            |counts: &BTreeMap<&str, u64>| counts.iter().map(|(name, count)| format!("{name} {count}")).collect::<Vec<_>>().join(", ");
        println!("{} calls: {}", self.calls.values().sum::<u64>(), list(&self.calls));
        println!("answers: {}", list(&self.answers));
        let refused: Vec<_> = self.refused.iter().map(|(number, count)| format!("{number}: {count}")).collect();
        println!("{} refused: {}", self.refused.values().sum::<u64>(), refused.join(", "));
        let edges: Vec<_> = self.edges.iter().map(|(name, [within, past])| format!("{name} {within}/{past}")).collect();
        println!("bounds, within and past: {}", edges.join(", "));
        self.apart.sort();
        for (size, text) in self.apart.iter().take(3) {
            println!("apart, size {size}: {}", &text[..text.len().min(6000)]);
        }
        let missed: Vec<usize> = (1..=18).filter(|number| !self.refused.contains_key(number)).collect();
        let bounds = EDGES.iter().map(|edge| format!("{edge:?}")).chain(OFFERS.iter().map(|edge| format!("prepare {edge:?}")));
        for name in bounds {
            self.edges.entry(name).or_default();
        }
        let one_sided: Vec<_> = self.edges.iter().filter(|(_, sides)| sides.contains(&0)).map(|(name, _)| name).collect();
        let whole = !long || missed.is_empty() && one_sided.is_empty();
        if !whole {
            println!("never refused under {missed:?}, not asked on both sides: {one_sided:?}");
        }
        println!("{} cases, {} apart", self.counted, self.apart.len());
        self.apart.is_empty() && whole
    }
}
