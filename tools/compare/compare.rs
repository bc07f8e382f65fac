//! Compares the listings of our lexer with those of the Rust lexer, text by text.
//!   compare [SECONDS [SEED]]
//! SECONDS is the time for random texts, half for each of their families.

use mend::Mend;
use std::process::ExitCode;
use std::sync::Mutex;
use std::sync::atomic::{AtomicU64, Ordering};
use std::time::{Duration, Instant};
use texts::Family;

mod mend;

unsafe extern "C" {
    /// Writes the listing of a text to `out`, as much as there is room for, and answers its length.
    fn cushallen_listing(
        input: *const u8,
        input_length: usize,
        out: *mut u8,
        out_length: usize,
    ) -> usize;
}

/// The longest texts have 65,536 tokens, each with an end; no two lines together pass 100 bytes.
const ROOM: usize = 100 * (driver::MOST_BYTES + 1);
const THREADS: usize = 2;
/// Texts that a thread takes at a time.
const BLOCK: u64 = 4096;
/// Differences that are printed for a family.
const SHOWN: usize = 10;

fn main() -> ExitCode {
    let mut arguments = std::env::args()
        .skip(1)
        .map(|word| word.parse().expect("a number"));
    let seconds: u64 = arguments.next().unwrap_or(60);
    let seed = arguments.next().unwrap_or(1);
    let mut total = Tally::default();
    for family in texts::whole_families() {
        total.add(compare_family(&*family, None));
    }
    for family in texts::random_families(seed) {
        let share = Duration::from_millis(seconds * 500);
        total.add(compare_family(&*family, Some(Instant::now() + share)));
    }
    println!("{}", total.told());
    if total.different.is_empty() {
        ExitCode::SUCCESS
    } else {
        ExitCode::FAILURE
    }
}

/// What came of the texts compared so far.
#[derive(Default)]
struct Tally {
    compared: u64,
    /// Texts that part as intended because of escapes, and those where two quotes matter.
    escapes: u64,
    quotes: u64,
    different: Vec<u64>,
}

impl Tally {
    fn add(&mut self, other: Tally) {
        self.compared += other.compared;
        self.escapes += other.escapes;
        self.quotes += other.quotes;
        self.different.extend(other.different);
    }

    fn told(&self) -> String {
        let Tally {
            compared,
            escapes,
            quotes,
            different,
        } = self;
        let intended = format!("{escapes} part as intended at escapes, {quotes} at two quotes");
        format!(
            "{compared} texts compared, {intended}, {} differ",
            different.len()
        )
    }
}

/// Compares all texts of a family, or those that there is time for, and prints what came of it.
fn compare_family(family: &dyn Family, until: Option<Instant>) -> Tally {
    let next = AtomicU64::new(0);
    let gathered = Mutex::new(Tally::default());
    std::thread::scope(|scope| {
        for _ in 0..THREADS {
            scope.spawn(|| {
                let tally = compare_blocks(family, &next, until);
                gathered.lock().unwrap().add(tally);
            });
        }
    });
    let mut tally = gathered.into_inner().unwrap();
    tally.different.sort();
    println!("{}: {}", family.name(), tally.told());
    for &number in tally.different.iter().take(SHOWN) {
        show(family, number);
    }
    tally
}

fn compare_blocks(family: &dyn Family, next: &AtomicU64, until: Option<Instant>) -> Tally {
    let count = family.count().unwrap_or(u64::MAX);
    let mut tally = Tally::default();
    let mut comparison = Comparison::new();
    loop {
        let start = next.fetch_add(BLOCK, Ordering::Relaxed);
        if start >= count || until.is_some_and(|until| Instant::now() >= until) {
            return tally;
        }
        for number in start..count.min(start + BLOCK) {
            tally.compared += 1;
            match comparison.of(family, number) {
                Answer::Same => {}
                Answer::Intended(Mend::Escapes) => tally.escapes += 1,
                Answer::Intended(Mend::EscapesAndQuotes) => tally.quotes += 1,
                Answer::Different => tally.different.push(number),
            }
        }
    }
}

enum Answer {
    Same,
    Intended(Mend),
    Different,
}

/// A text with both listings; kept from text to text for its room.
struct Comparison {
    text: Vec<u8>,
    theirs: Vec<u8>,
    ours: Vec<u8>,
    ours_length: usize,
}

impl Comparison {
    fn new() -> Comparison {
        Comparison {
            text: Vec::new(),
            theirs: Vec::new(),
            ours: vec![0; ROOM],
            ours_length: 0,
        }
    }

    fn of(&mut self, family: &dyn Family, number: u64) -> Answer {
        self.text.clear();
        family.write(number, &mut self.text);
        self.theirs.clear();
        driver::list(&self.text, &mut self.theirs);
        // SAFETY: both slices are alive and as long as said, and nothing else holds `ours`.
        self.ours_length = unsafe {
            cushallen_listing(
                self.text.as_ptr(),
                self.text.len(),
                self.ours.as_mut_ptr(),
                self.ours.len(),
            )
        };
        if self.ours() == self.theirs {
            return Answer::Same;
        }
        match [Mend::Escapes, Mend::EscapesAndQuotes]
            .into_iter()
            .find(|&mend| self.parts_as_intended(mend))
        {
            Some(mend) => Answer::Intended(mend),
            None => Answer::Different,
        }
    }

    fn ours(&self) -> &[u8] {
        &self.ours[..self.ours_length.min(ROOM)]
    }

    /// Where the two part stands an option list, and to the list written plainly the Rust answers as we do.
    fn parts_as_intended(&self, mend: Mend) -> bool {
        let mut text = self.text.clone();
        let mut theirs = self.theirs.clone();
        while let Some(place) = first_parting(self.ours(), &theirs) {
            let Some(plain) = mend::plainly(mend, &text, place) else {
                return false;
            };
            text = plain;
            theirs = driver::listing(&text);
        }
        self.ours() == theirs
    }
}

/// The place of the first token on which two listings part.
fn first_parting(ours: &[u8], theirs: &[u8]) -> Option<usize> {
    let lines = |listing: &[u8]| String::from_utf8_lossy(listing).into_owned();
    let (ours, theirs) = (lines(ours), lines(theirs));
    let (_, line) = ours
        .lines()
        .zip(theirs.lines())
        .find(|(our, their)| our != their)?;
    let place = line.strip_prefix("token ")?.split(' ').next()?;
    place.parse().ok()
}

fn show(family: &dyn Family, number: u64) {
    let mut comparison = Comparison::new();
    comparison.of(family, number);
    println!(
        "--- {} {number}: {:?}",
        family.name(),
        String::from_utf8_lossy(&comparison.text)
    );
    println!("bytes {:02x?}", comparison.text);
    println!("Rust:\n{}", String::from_utf8_lossy(&comparison.theirs));
    println!("ours:\n{}", String::from_utf8_lossy(comparison.ours()));
}
