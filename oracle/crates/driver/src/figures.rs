//! how often what was compared.
use std::collections::BTreeMap;
use std::fmt;

/// where a block came from: a kind and, for faults and edits, a name.
#[derive(Clone, Copy, PartialEq, Eq, PartialOrd, Ord)]
pub struct Source(pub &'static str, pub &'static str);

impl fmt::Display for Source {
    fn fmt(&self, f: &mut fmt::Formatter) -> fmt::Result {
        let Source(kind, name) = self;
        if name.is_empty() { write!(f, "{kind}") } else { write!(f, "{kind}, {name}") }
    }
}

/// becomes text only when it is printed.
#[derive(PartialEq, Eq, PartialOrd, Ord)]
pub enum Figure { Answered { name: &'static str, call: Option<u32>, code: u32 }, Question2 { sound: bool, source: Source }, NoRoom(Source), Sequences, Profile(&'static str) }

impl fmt::Display for Figure {
    fn fmt(&self, f: &mut fmt::Formatter) -> fmt::Result {
        match self {
            Figure::Answered { name, call: None, code } => write!(f, "{name} answered {code}"),
            Figure::Answered { name, call: Some(number), code } => write!(f, "{name} {number:02x} answered {code}"),
            Figure::Question2 { sound, source } => write!(f, "question 2 {} {source}", if *sound { "yes:" } else { "no: " }),
            Figure::NoRoom(source) => write!(f, "no block can hold it: {source}"),
            Figure::Sequences => write!(f, "sequences"),
            Figure::Profile(name) => write!(f, "sequences of profile {name}"),
        }
    }
}

#[derive(Default)]
pub struct Figures { counts: BTreeMap<Figure, u64>, pub differing: u64 }

impl Figures {
    pub fn add(&mut self, what: Figure) { *self.counts.entry(what).or_default() += 1; }

    pub fn print(&self) {
        let lines: BTreeMap<String, u64> = self.counts.iter().map(|(what, n)| (what.to_string(), *n)).collect();
        for (what, n) in &lines { println!("{n:>10} {what}"); }
        println!("{:>10} differing", self.differing);
    }
}
