//! What a comparison has found.

use crate::lent::{Left, Lent};
use std::fmt::Debug;

/// How many differences are printed; the others are only counted.
const TOLD: usize = 10;

#[derive(Default)]
pub struct Report {
    pub calls: u64,
    /// What is being compared, to be printed with a difference.
    pub context: String,
    differences: Vec<String>,
    untold: u64,
}

impl Report {
    /// One call, and whether both sides answered the same.
    pub fn answer<T: PartialEq + Debug>(&mut self, call: impl Fn() -> String, library: T, plain: T) {
        self.calls += 1;
        if library != plain {
            self.differs(format!("{}: the library answers {library:?}, plain {plain:?}", call()));
        }
    }

    /// What the call left in a lent buffer.
    pub fn buffer(&mut self, call: impl Fn() -> String, lent: &Lent, left: Left) {
        if let Some((place, found)) = lent.wrong(left) {
            self.differs(format!("{}: the library left {found} at {place} of a buffer, and plain does not", call()));
        }
    }

    /// Something that must hold regardless of what plain says.
    pub fn holds(&mut self, what: impl Fn() -> String, holds: bool) {
        if !holds {
            self.differs(what());
        }
    }

    fn differs(&mut self, text: String) {
        match self.differences.len() < TOLD {
            true if self.context.is_empty() => self.differences.push(text),
            true => self.differences.push(format!("{} [{}]", text, self.context)),
            false => self.untold += 1,
        }
    }

    pub fn add(&mut self, other: Report) {
        self.calls += other.calls;
        self.untold += other.untold;
        for text in other.differences {
            match self.differences.len() < TOLD {
                true => self.differences.push(text),
                false => self.untold += 1,
            }
        }
    }

    /// Prints one line, or what differs. Answers whether all was the same.
    pub fn print(&self, name: &str, seed: Option<u64>) -> bool {
        let seed = seed.map_or(String::new(), |seed| format!(", seed {seed}"));
        if self.differences.is_empty() {
            println!("{name}: the same ({} calls{seed})", self.calls);
            return true;
        }
        println!("{name}: NOT the same ({} calls{seed})", self.calls);
        self.differences.iter().for_each(|text| println!("  {text}"));
        if self.untold > 0 {
            println!("  and {} more", self.untold);
        }
        false
    }
}

/// Does the work in two threads, numbered 0 and 1, and merges what they found.
pub fn in_two(work: impl Fn(usize, &mut Report) + Sync) -> Report {
    let half = |part: usize| {
        let mut report = Report::default();
        work(part, &mut report);
        report.context.clear();
        report
    };
    std::thread::scope(|scope| {
        let other = scope.spawn(|| half(1));
        let mut report = half(0);
        report.add(other.join().expect("the other thread ends"));
        report
    })
}
