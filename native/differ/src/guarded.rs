//! Lent memory with dirty contents and guard places before and after.

use second::random::Random;
use std::fmt::Debug;

/// Guard places on each side.
const GUARD: usize = 16;

/// Values to find in memory that nobody cleared.
pub trait Dirt: Copy + PartialEq + Debug {
    fn dirt(random: &mut Random) -> Self;
}

impl Dirt for u8 {
    fn dirt(random: &mut Random) -> u8 {
        random.next() as u8
    }
}

impl Dirt for u16 {
    fn dirt(random: &mut Random) -> u16 {
        let any = random.next() as u16;
        random.pick(&[0, 1, 2, 3, 65_535, any])
    }
}

impl Dirt for u64 {
    fn dirt(random: &mut Random) -> u64 {
        let (small, any) = (random.below(50) as u64, random.next());
        let most = 1_000_000_000_000_000;
        random.pick(&[0, 1, small, most, most + 1, u64::MAX, any])
    }
}

/// Memory between guard places.
#[derive(Clone)]
pub struct Guarded<T> {
    all: Vec<T>,
    before: Vec<T>,
    length: usize,
}

impl<T: Dirt> Guarded<T> {
    /// So many dirty places.
    pub fn dirty(random: &mut Random, length: usize) -> Guarded<T> {
        let places = length + 2 * GUARD;
        let all: Vec<T> = (0..places).map(|_| T::dirt(random)).collect();
        let before = all.clone();
        Guarded {
            all,
            before,
            length,
        }
    }

    /// These items.
    pub fn holding(random: &mut Random, items: &[T]) -> Guarded<T> {
        let mut guarded = Guarded::dirty(random, items.len());
        guarded.inside_mut().copy_from_slice(items);
        guarded.before.clone_from(&guarded.all);
        guarded
    }

    pub fn inside(&self) -> &[T] {
        &self.all[GUARD..GUARD + self.length]
    }

    pub fn inside_mut(&mut self) -> &mut [T] {
        &mut self.all[GUARD..GUARD + self.length]
    }

    /// What the places held before.
    pub fn before(&self) -> &[T] {
        &self.before[GUARD..GUARD + self.length]
    }

    /// What is there now is what was there before the next call.
    pub fn settle(&mut self) {
        self.before.clone_from(&self.all);
    }

    /// The places as an array of their number.
    pub fn array<const N: usize>(&mut self) -> &mut [T; N] {
        self.inside_mut().try_into().expect("an array's length")
    }

    /// The first places hold these values now, and all others what they held before.
    pub fn expect(&self, name: &str, first: &[T]) -> Result<(), String> {
        self.expect_from(0, name, first)
    }

    /// The places from this one on hold these values now, and all others what they held before.
    pub fn expect_from(&self, start: usize, name: &str, values: &[T]) -> Result<(), String> {
        let mut wanted = self.before.clone();
        if !values.is_empty() {
            wanted[GUARD + start..][..values.len()].copy_from_slice(values);
        }
        match (0..wanted.len()).find(|&i| self.all[i] != wanted[i]) {
            None => Ok(()),
            Some(i) => Err(format!(
                "{name} of length {}, place {}: holds {:?}, should hold {:?}, held {:?} before",
                self.length,
                i as isize - GUARD as isize,
                self.all[i],
                wanted[i],
                self.before[i]
            )),
        }
    }

    /// Nothing has changed.
    pub fn expect_same(&self, name: &str) -> Result<(), String> {
        self.expect(name, &[])
    }
}

/// A number that was answered is the one expected.
pub fn same(name: &str, answered: u64, right: u64) -> Result<(), String> {
    if answered == right {
        return Ok(());
    }
    Err(format!("{name}: answers {answered}, should answer {right}"))
}
