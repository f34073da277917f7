//! The format of a link: five numbers, as the caller gives them, and which of them are known (01, "A span"; 02, A3).

/// In every field 0 is unknown, so that a forgotten one is refused and never guessed.
#[derive(Clone, Copy, Debug, PartialEq, Eq)]
pub struct Format {
    /// 1, 2, 3: 120, 100, 50 Hz.
    pub number: u32,
    /// 10, 12: the bits of a sample.
    pub depth: u32,
    /// 1 to 6: G', B', R', Y', C'B, C'R.
    pub component: u32,
    /// 1: 4:4:4.
    pub structure: u32,
    /// 1: 4K.
    pub size: u32,
}

impl Format {
    /// What document 01 speaks of, with G' for the component: 4:4:4, 4K.
    pub const fn plain(number: u32, depth: u32) -> Format {
        Format { number, depth, component: 1, structure: 1, size: 1 }
    }

    /// The same for a link of another component.
    pub const fn carrying(self, component: u32) -> Format {
        Format { component, ..self }
    }

    /// Whether every field is one of the numbers above.
    pub fn is_known(self) -> bool {
        let link = (1..=3).contains(&self.number) && [10, 12].contains(&self.depth) && (1..=6).contains(&self.component);
        link && self.structure == 1 && self.size == 1
    }
}
