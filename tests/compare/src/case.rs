//! What a comparison is: a case that can be checked and made smaller, and the counts of the calls that were compared.

/// The families of calls, in the order in which they are counted.
#[derive(Clone, Copy, Debug, PartialEq, Eq)]
pub enum Family {
    Judging,
    Tables,
    Rows,
    Titles,
    Texts,
    Fields,
    Ratings,
    Lists,
    Writing,
    Shelf,
    Unruly,
    Lister,
}

impl Family {
    pub const ALL: [Family; 12] = [
        Family::Judging,
        Family::Tables,
        Family::Rows,
        Family::Titles,
        Family::Texts,
        Family::Fields,
        Family::Ratings,
        Family::Lists,
        Family::Writing,
        Family::Shelf,
        Family::Unruly,
        Family::Lister,
    ];

    pub fn name(self) -> String {
        format!("{self:?}").to_lowercase()
    }
}

/// How many calls of a family were answered by each number, 0 for done.
#[derive(Default)]
pub struct Tally([[u64; 25]; Family::ALL.len()]);

impl Tally {
    pub fn add(&mut self, case: &impl Case, answer: u32) {
        self.0[case.family() as usize][answer as usize] += 1;
    }

    pub fn all(&self) -> u64 {
        self.0.iter().flatten().sum()
    }

    /// A family's calls, and by which numbers they were answered.
    pub fn line(&self, family: Family) -> String {
        let answers = &self.0[family as usize];
        let refused = (1..answers.len())
            .filter(|&number| answers[number] > 0)
            .map(|number| format!(" {number}:{}", answers[number]));
        format!(
            "{:>9} {}, done {}, refused{}",
            answers.iter().sum::<u64>(),
            family.name(),
            answers[0],
            refused.collect::<String>()
        )
    }
}

/// A call, or some calls one after the other, with all that they are lent.
pub trait Case: Clone {
    fn family(&self) -> Family;
    /// Makes the calls and counts them by the reference's answers. None where library and reference agree; else what differs, for a reader.
    fn difference(&self, tally: &mut Tally) -> Option<String>;
    /// Cases that are smaller, the smallest first.
    fn smaller(&self) -> Box<dyn Iterator<Item = Self> + '_>;
    /// The call and what it is lent.
    fn shown(&self) -> String;
}

/// The smallest case that can be found from here and still differs, as words.
pub fn report<C: Case>(case: &C) -> String {
    let mut uncounted = Tally::default();
    let mut smallest = case.clone();
    loop {
        let next = smallest.smaller().find(|case| case.difference(&mut uncounted).is_some());
        match next {
            Some(next) => smallest = next,
            None => break,
        }
    }
    format!(
        "{}: {}\n{}",
        case.family().name(),
        smallest.shown(),
        smallest.difference(&mut uncounted).unwrap_or_default()
    )
}

/// Bytes with a chunk taken out, large chunks first, and then with a chunk set to 0.
pub fn smaller_bytes(bytes: &[u8]) -> impl Iterator<Item = Vec<u8>> + '_ {
    let sizes = || std::iter::successors(Some(bytes.len()), |&size| Some(size / 2)).take_while(|&size| size > 0);
    let chunks =
        move || sizes().flat_map(move |size| (0..=bytes.len() - size).step_by(size).map(move |at| at..at + size));
    let cut = chunks().map(|chunk| [&bytes[..chunk.start], &bytes[chunk.end..]].concat());
    let blank = chunks().filter(|chunk| bytes[chunk.clone()].iter().any(|&byte| byte != 0)).map(|chunk| {
        let mut blank = bytes.to_vec();
        blank[chunk].fill(0);
        blank
    });
    cut.chain(blank)
}

pub fn hex(bytes: &[u8]) -> String {
    bytes.iter().map(|byte| format!("{byte:02x}")).collect()
}

/// What stands in lent memory before a call.
pub const BEFORE: u32 = 0xA5C3_5A3C;
pub const BEFORE_16: u16 = 0xA53C;
pub const BEFORE_8: u8 = 0xA5;
/// How many elements behind what is lent are looked at too.
pub const BEHIND: usize = 8;

/// Whether lent memory begins with what was to be written and is else as it was before.
pub fn written<T: PartialEq + Copy>(memory: &[T], expected: &[T], before: T) -> bool {
    memory.len() >= expected.len()
        && memory[..expected.len()] == *expected
        && memory[expected.len()..].iter().all(|&one| one == before)
}
