//! Memory that is handed to both sides, with guards around it.

use gcf::raw;

/// Cells of guard on each side; an odd number, so that bytes also stand at odd addresses.
const GUARD: usize = 33;

/// What a cell holds before a call.
pub trait Cell: Copy + PartialEq {
    /// No byte of it is zero, so that a cell set to zero shows.
    const BEFORE: Self;
}

impl Cell for u8 {
    const BEFORE: u8 = 0xA5;
}

impl Cell for u16 {
    const BEFORE: u16 = 0xA5A5;
}

impl Cell for u32 {
    const BEFORE: u32 = 0xA5A5_A5A5;
}

impl Cell for u64 {
    const BEFORE: u64 = 0xA5A5_A5A5_A5A5_A5A5;
}

/// A lent buffer between two guards.
#[derive(Clone, PartialEq, Eq)]
pub struct Lent<T> {
    cells: Vec<T>,
    length: usize,
}

impl<T: Cell> Lent<T> {
    /// A buffer of some length.
    pub fn new(length: usize) -> Lent<T> {
        Lent { cells: vec![T::BEFORE; GUARD + length + GUARD], length }
    }

    /// No buffer, where a function wants none.
    pub fn none() -> Lent<T> {
        Lent { cells: Vec::new(), length: 0 }
    }

    /// The part between the guards.
    pub fn part(&mut self) -> &mut [T] {
        self.cells.get_mut(GUARD..GUARD + self.length).unwrap_or(&mut [])
    }

    /// The first place, counted from the buffer's start, where two buffers differ, and what stands there.
    pub fn difference(&self, other: &Lent<T>) -> Option<(isize, T, T)> {
        let mut pairs = self.cells.iter().zip(&other.cells).enumerate();
        let (at, (one, two)) = pairs.find(|(_, (one, two))| one != two)?;
        Some((at as isize - GUARD as isize, *one, *two))
    }
}

/// A struct of further results between two guards.
#[repr(C)]
struct Guarded<T> {
    before: [u64; 3],
    told: T,
    behind: [u64; 3],
}

/// What a call tells: a number for each field of its struct, with the guards around it.
#[derive(Clone, PartialEq, Eq)]
pub struct Numbers(Vec<u64>);

impl Numbers {
    /// What stands in three cells of guard.
    const GUARD: [u64; 3] = [u64::BEFORE; 3];

    /// Hands a struct over between guards, and keeps what they hold then.
    pub fn by<T: raw::Told, R>(&mut self, call: impl FnOnce(&mut T) -> R) -> R {
        let mut lent =
            Guarded { before: Numbers::GUARD, told: T::filled(u64::BEFORE), behind: Numbers::GUARD };
        let answer = call(&mut lent.told);
        self.0 = [&lent.before, lent.told.numbers(), &lent.behind].concat();
        answer
    }

    /// As where these were told.
    pub fn give(&mut self, results: &[u64]) {
        self.0 = [&Numbers::GUARD, results, &Numbers::GUARD].concat();
    }

    /// The first place, counted from the first field, where two differ, and what stands there.
    pub fn difference(&self, other: &Numbers) -> Option<(isize, u64, u64)> {
        let mut pairs = self.0.iter().zip(&other.0).enumerate();
        let (at, (one, two)) = pairs.find(|(_, (one, two))| one != two)?;
        Some((at as isize - Numbers::GUARD.len() as isize, *one, *two))
    }
}

/// All memory that a call may change.
#[derive(Clone, PartialEq, Eq)]
pub struct Memory {
    pub first: Lent<u8>,
    pub second: Lent<u8>,
    pub starts: Lent<u16>,
    pub changes: Lent<u32>,
    pub told: Numbers,
}

impl Memory {
    /// None at all.
    pub fn none() -> Memory {
        Memory {
            first: Lent::none(),
            second: Lent::none(),
            starts: Lent::none(),
            changes: Lent::none(),
            told: Numbers(Vec::new()),
        }
    }

    /// With a buffer of bytes.
    pub fn with_buffer(self, length: usize) -> Memory {
        Memory { first: Lent::new(length), ..self }
    }

    /// With a second buffer of bytes too.
    pub fn with_second(self, length: usize) -> Memory {
        Memory { second: Lent::new(length), ..self }
    }

    /// With a list of starts too.
    pub fn with_starts(self, length: usize) -> Memory {
        Memory { starts: Lent::new(length), ..self }
    }

    /// With a list of changes too.
    pub fn with_changes(self, length: usize) -> Memory {
        Memory { changes: Lent::new(length), ..self }
    }

    /// Puts back what stood in the buffers, and forgets what was told; what is left of a call is then outside.
    pub fn forget(&mut self) {
        self.first.part().fill(u8::BEFORE);
        self.second.part().fill(u8::BEFORE);
        self.starts.part().fill(u16::BEFORE);
        self.changes.part().fill(u32::BEFORE);
        let fields = self.told.0.len().saturating_sub(2 * Numbers::GUARD.len());
        self.told.0.drain(Numbers::GUARD.len()..Numbers::GUARD.len() + fields);
        if self.told.0 == [Numbers::GUARD; 2].concat() {
            self.told.0.clear();
        }
    }
}

/// Bytes that a call may only read: one copy between guards for the proved side, one for the plain side.
#[derive(Clone)]
pub struct Given {
    lent: Lent<u8>,
    plain: Lent<u8>,
}

impl Given {
    /// Two copies of the bytes.
    pub fn new(bytes: &[u8]) -> Given {
        let mut lent = Lent::new(bytes.len());
        lent.part().copy_from_slice(bytes);
        Given { plain: lent.clone(), lent }
    }

    /// The copy for the proved side.
    pub fn proved(&self) -> &[u8] {
        self.lent.cells.get(GUARD..GUARD + self.lent.length).unwrap_or(&[])
    }

    /// The copy for the plain side.
    pub fn plain(&self) -> &[u8] {
        self.plain.cells.get(GUARD..GUARD + self.plain.length).unwrap_or(&[])
    }

    /// Whether both copies, with their guards, are as they were.
    pub fn is_unchanged(&self) -> bool {
        self.lent == self.plain
    }
}
