//! The texts that are compared. Each family numbers its texts, and a text is a function of its number alone, so that a run can be
//! shared among threads, stopped anywhere and repeated.

mod chance;
mod pieces;
mod psql;
mod scripts;
mod short;

pub use chance::Chance;
pub use pieces::Pieces;
pub use psql::{ENDING, LINES, OTHERS, PIPED, commands, near_misses};
pub use scripts::{Scripts, Sizes};
pub use short::{Characters, Sequences, short_families};

/// Texts numbered from 0.
pub trait Family: Send + Sync {
    fn name(&self) -> &str;

    /// How many texts there are; none if they do not run out.
    fn count(&self) -> Option<u64>;

    /// Appends text `number` to `out`.
    fn write(&self, number: u64, out: &mut Vec<u8>);
}

/// Texts that were written out.
pub struct Listed {
    pub name: &'static str,
    pub texts: Vec<Vec<u8>>,
}

impl Family for Listed {
    fn name(&self) -> &str {
        self.name
    }

    fn count(&self) -> Option<u64> {
        Some(self.texts.len() as u64)
    }

    fn write(&self, number: u64, out: &mut Vec<u8>) {
        out.extend_from_slice(&self.texts[number as usize]);
    }
}

/// Families that are compared whole.
pub fn whole_families() -> Vec<Box<dyn Family>> {
    let mut families = short_families();
    families.push(Box::new(Characters));
    families.push(Box::new(commands()));
    families.push(Box::new(Sizes));
    families
}

/// Families without an end, of which as many texts are compared as there is time for.
pub fn random_families(seed: u64) -> Vec<Box<dyn Family>> {
    vec![Box::new(Pieces { seed }), Box::new(Scripts { seed })]
}
