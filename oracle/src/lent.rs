//! A list as a caller lends it, with bytes around it that must stay as they are.

use std::fmt::Debug;

#[cfg(feature = "library")]
use harkoxin::raw::OpenStart;

use crate::pages::Pages;
use crate::rng::Rng;

/// Bytes on each side of a list that a call must leave alone.
pub const MARGIN: usize = 64;

/// An element of a list: any bytes of its size are one.
///
/// # Safety
///
/// Every bit pattern is a value, and there is no padding.
pub unsafe trait Element: Copy + PartialEq + Debug {
    fn of_word(word: u64) -> Self;
}

// SAFETY: an unsigned number.
unsafe impl Element for u8 {
    fn of_word(word: u64) -> u8 {
        (word >> 56) as u8
    }
}

// SAFETY: an unsigned number.
unsafe impl Element for u32 {
    fn of_word(word: u64) -> u32 {
        (word >> 32) as u32
    }
}

// SAFETY: an unsigned number.
unsafe impl Element for u64 {
    fn of_word(word: u64) -> u64 {
        word
    }
}

#[cfg(feature = "library")]
// SAFETY: two unsigned numbers, and the binding asserts that they fill it.
unsafe impl Element for OpenStart {
    /// One in four could be an open start of a small document, so that a check that reads it may take it for one. The base is
    /// never empty, so that it shows whether a record was cleared.
    fn of_word(word: u64) -> OpenStart {
        let (node, base_len) = ((word >> 32) as u32, word as u32);
        match base_len % 4 {
            0 => OpenStart {
                node: node % 64,
                base_len: 1 + base_len / 4 % 8,
            },
            _ => OpenStart { node, base_len },
        }
    }
}

/// Where a list stands.
#[derive(Clone, Copy, PartialEq, Debug)]
pub enum Place {
    /// Between two margins, at any address that its elements may have.
    Between,
    /// Right behind an inaccessible page, a margin after it.
    First,
    /// Right before an inaccessible page, a margin before it.
    Last,
}

/// Room for one list, which is lent again and again.
pub struct Slot<T> {
    pages: Pages,
    /// In bytes.
    start: usize,
    /// What was lent.
    before: Vec<T>,
    mark: u8,
}

impl<T: Element> Default for Slot<T> {
    fn default() -> Self {
        Slot {
            pages: Pages::new(1),
            start: 0,
            before: Vec::new(),
            mark: 0,
        }
    }
}

impl<T: Element> Slot<T> {
    const SIZE: usize = size_of::<T>();
    const ALIGN: usize = align_of::<T>();

    /// Lends this content, at a place by the seed.
    pub fn put(&mut self, content: &[T], rng: &mut Rng) {
        self.before.clear();
        self.before.extend_from_slice(content);
        self.place(rng);
    }

    /// Lends a list of this length that holds anything.
    pub fn fill(&mut self, len: usize, rng: &mut Rng) {
        self.before.clear();
        let any = (0..len).map(|_| T::of_word(rng.word()));
        self.before.extend(any);
        self.place(rng);
    }

    /// Writes the list at a place by the seed.
    fn place(&mut self, rng: &mut Rng) {
        let place = match rng.below(8) {
            0..4 => Place::Between,
            4..7 => Place::Last,
            _ => Place::First,
        };
        let by = rng.below(MARGIN);
        self.mark = rng.word() as u8;
        self.place_at(place, by);
    }

    /// The start moves up by at most so many bytes where both margins are there.
    fn place_at(&mut self, place: Place, by: usize) {
        let bytes = self.before.len() * Self::SIZE;
        let room = bytes + 3 * MARGIN;
        if self.pages.len() < room {
            self.pages = Pages::new(room);
        }
        self.start = match place {
            Place::Between => MARGIN + by / Self::ALIGN * Self::ALIGN,
            Place::First => 0,
            Place::Last => self.pages.len() - bytes,
        };
        let (start, end) = (self.start, self.start + bytes);
        let all = self.pages.bytes_mut();
        all[start.saturating_sub(MARGIN)..start].fill(self.mark);
        let last = (end + MARGIN).min(all.len());
        all[end..last].fill(self.mark);
        elements_mut(&mut all[start..end]).copy_from_slice(&self.before);
    }

    fn end(&self) -> usize {
        self.start + self.before.len() * Self::SIZE
    }

    pub fn list(&self) -> &[T] {
        elements(&self.pages.bytes()[self.start..self.end()])
    }

    pub fn list_mut(&mut self) -> &mut [T] {
        let places = self.start..self.end();
        elements_mut(&mut self.pages.bytes_mut()[places])
    }

    /// The number of elements.
    pub fn len(&self) -> usize {
        self.before.len()
    }

    pub fn is_empty(&self) -> bool {
        self.before.is_empty()
    }

    /// Makes a write of the list or beside it end the program, until `allow_writes`.
    pub fn write_protect(&mut self) {
        self.pages.write_protect();
    }

    pub fn allow_writes(&mut self) {
        self.pages.allow_writes();
    }

    /// An error unless the list is as it was lent but for these elements at its beginning, and the margins are as they were.
    pub fn expect(&self, what: &str, written: &[T]) -> Result<(), String> {
        let (first, rest) = self.list().split_at(written.len());
        if first != written || rest != &self.before[written.len()..] {
            return Err(self.difference(what, written));
        }
        if !self.margins_are_whole() {
            return Err(format!("{what}: bytes beside the list are written"));
        }
        Ok(())
    }

    fn margins_are_whole(&self) -> bool {
        let all = self.pages.bytes();
        let before = &all[self.start.saturating_sub(MARGIN)..self.start];
        let after = &all[self.end()..(self.end() + MARGIN).min(all.len())];
        before.iter().chain(after).all(|&byte| byte == self.mark)
    }

    fn difference(&self, what: &str, written: &[T]) -> String {
        let expected = |place: usize| *written.get(place).unwrap_or(&self.before[place]);
        let list = self.list();
        let place = (0..list.len()).find(|&place| list[place] != expected(place));
        let place = place.expect("the lists differ");
        let (is, expected, len) = (list[place], expected(place), list.len());
        format!("{what}: element {place} of {len} is {is:?} instead of {expected:?}")
    }
}

/// Bytes at the alignment of `T`, as many as whole elements have.
fn elements<T: Element>(bytes: &[u8]) -> &[T] {
    // SAFETY: every bit pattern is a value of `T`.
    let (before, list, after) = unsafe { bytes.align_to() };
    assert!(before.is_empty() && after.is_empty());
    list
}

fn elements_mut<T: Element>(bytes: &mut [u8]) -> &mut [T] {
    // SAFETY: every bit pattern is a value of `T`, and every value of `T` has its bytes.
    let (before, list, after) = unsafe { bytes.align_to_mut() };
    assert!(before.is_empty() && after.is_empty());
    list
}

#[cfg(test)]
mod tests {
    use super::*;

    const PLACES: [Place; 3] = [Place::Between, Place::First, Place::Last];

    /// A record as `OpenStart` is, there without the library too.
    #[derive(Clone, Copy, PartialEq, Debug)]
    #[repr(C)]
    struct Pair(u32, u32);

    // SAFETY: two unsigned numbers.
    unsafe impl Element for Pair {
        fn of_word(word: u64) -> Pair {
            Pair(word as u32, !word as u32)
        }
    }

    /// Calls `test` with the numbers 1 to 5 lent at each place.
    fn each_place<T: Element>(mut test: impl FnMut(Place, &mut Slot<T>)) {
        let mut slot = Slot::default();
        for place in PLACES {
            for by in 0..MARGIN {
                slot.put(&[1, 2, 3, 4, 5].map(T::of_word), &mut Rng::new(by as u64));
                slot.place_at(place, by);
                test(place, &mut slot);
            }
        }
    }

    fn reaches_the_ends<T: Element>() {
        each_place::<T>(|place, slot| {
            let all = slot.pages.bytes().as_ptr_range();
            let list = slot.list().as_ptr_range();
            assert_eq!(slot.list(), slot.before);
            assert_eq!(list.start.cast() == all.start, place == Place::First);
            assert_eq!(list.end.cast() == all.end, place == Place::Last);
            assert_eq!(slot.expect("list", &[]), Ok(()));
        });
    }

    #[test]
    fn a_list_stands_where_its_place_says() {
        reaches_the_ends::<u8>();
        reaches_the_ends::<u32>();
        reaches_the_ends::<u64>();
        reaches_the_ends::<Pair>();
    }

    /// By their rest by 8, the addresses at which a list is lent.
    fn rests<T: Element>() -> [bool; 8] {
        let mut seen = [false; 8];
        each_place::<T>(|_, slot| seen[slot.list().as_ptr() as usize % 8] = true);
        seen
    }

    #[test]
    fn lists_are_lent_at_every_alignment() {
        let by_4 = [true, false, false, false, true, false, false, false];
        assert_eq!(rests::<u8>(), [true; 8]);
        assert_eq!(rests::<u32>(), by_4);
        assert_eq!(rests::<Pair>(), by_4);
    }

    #[test]
    fn both_fields_of_a_record_are_looked_at() {
        each_place::<Pair>(|_, slot| {
            slot.list_mut()[0] = Pair(0, 0);
            assert_eq!(slot.expect("list", &[Pair(0, 0)]), Ok(()));
            for place in 0..5 {
                let Pair(first, second) = slot.list()[place];
                for other in [Pair(first ^ 1, second), Pair(first, second ^ 1)] {
                    slot.list_mut()[place] = other;
                    assert!(slot.expect("list", &[Pair(0, 0)]).is_err());
                }
                slot.list_mut()[place] = Pair(first, second);
            }
            assert_eq!(slot.expect("list", &[Pair(0, 0)]), Ok(()));
        });
    }

    #[test]
    fn what_is_written_over_the_beginning_is_expected() {
        each_place::<u64>(|_, slot| {
            slot.list_mut()[..2].copy_from_slice(&[8, 9]);
            assert_eq!(slot.expect("list", &[8, 9]), Ok(()));
            assert!(slot.expect("list", &[8]).is_err());
            assert!(slot.expect("list", &[8, 9, 8]).is_err());
            assert!(slot.expect("list", &[]).is_err());
        });
    }

    #[test]
    fn each_byte_of_a_margin_is_looked_at() {
        each_place::<u32>(|place, slot| {
            let (start, end) = (slot.start, slot.end());
            let before = start - if place == Place::First { 0 } else { MARGIN };
            let after = end + if place == Place::Last { 0 } else { MARGIN };
            for byte in (before..start).chain(end..after) {
                slot.pages.bytes_mut()[byte] ^= 1;
                assert!(slot.expect("list", &[]).is_err(), "{byte}");
                slot.pages.bytes_mut()[byte] ^= 1;
            }
            assert_eq!(slot.expect("list", &[]), Ok(()));
        });
    }

    #[test]
    fn a_long_list_gets_room() {
        let mut slot = Slot::<u64>::default();
        let rng = &mut Rng::new(3);
        slot.fill(100_000, rng);
        assert_eq!((slot.len(), slot.list().len()), (100_000, 100_000));
        slot.list_mut()[99_999] ^= 1;
        let message = slot.expect("list", &[]).unwrap_err();
        assert!(message.starts_with("list: element 99999 of 100000 is "));
    }
}
