//! Arrays lent to the library, to be read or to be written. Each lies against a page that cannot
//! be touched, before it or behind it: a touch of that page ends the program. What lies on its
//! other side is compared, as the array is.
use crate::pages::Pages;
use second_model::random::Random;
use std::fmt::Debug;

/// A value of the pattern that an array is filled with. For truth tables it is never 0 or 1.
pub trait Pattern: Copy + PartialEq + Debug {
    fn pattern(random: &mut Random) -> Self;
}

impl Pattern for u8 {
    fn pattern(random: &mut Random) -> u8 {
        0x80 | random.draw() as u8
    }
}

impl Pattern for u16 {
    fn pattern(random: &mut Random) -> u16 {
        random.draw() as u16
    }
}

impl Pattern for u32 {
    fn pattern(random: &mut Random) -> u32 {
        random.draw() as u32
    }
}

impl Pattern for u64 {
    fn pattern(random: &mut Random) -> u64 {
        random.draw()
    }
}

impl Pattern for i32 {
    fn pattern(random: &mut Random) -> i32 {
        random.draw() as i32
    }
}

/// An array of any kind that was lent to be read only.
pub trait Kept {
    /// Whether nothing at all was written, to the array or beside it.
    fn untouched(&self) -> bool;
}

pub struct Lent<T: Pattern> {
    /// `None` only while the array is given back.
    pages: Option<Pages>,
    /// Where the array begins in its pages, in bytes.
    start: usize,
    before: Vec<T>,
}

impl<T: Pattern> Lent<T> {
    /// An array filled with a pattern, to be written.
    pub fn new(length: usize, random: &mut Random) -> Lent<T> {
        let content = (0..length).map(|_| T::pattern(random)).collect();
        Lent::laid(content, random.one_in(2))
    }

    /// An array that is lent with a content of its own.
    pub fn of(content: &[T], random: &mut Random) -> Lent<T> {
        Lent::laid(content.to_vec(), random.one_in(2))
    }

    /// Right behind the page that cannot be touched, or right before it.
    fn laid(before: Vec<T>, behind: bool) -> Lent<T> {
        let bytes = size_of_val(&before[..]);
        let pages = Pages::take(bytes);
        let start = if behind { 0 } else { pages.length() - bytes };
        let content = before.clone();
        let mut lent = Lent { pages: Some(pages), start, before };
        lent.part().copy_from_slice(&content);
        lent
    }

    fn pages(&self) -> &Pages {
        self.pages.as_ref().expect("it is lent")
    }

    /// The first byte behind the array.
    fn end(&self) -> usize {
        self.start + size_of_val(&self.before[..])
    }

    /// The part that is lent.
    pub fn part(&mut self) -> &mut [T] {
        let start = self.pages().at(self.start).cast();
        unsafe { std::slice::from_raw_parts_mut(start, self.before.len()) }
    }

    pub fn content(&self) -> &[T] {
        let start = self.pages().at(self.start).cast();
        unsafe { std::slice::from_raw_parts(start, self.before.len()) }
    }

    /// Whether nothing at all was written.
    pub fn untouched(&self) -> bool {
        self.holds(&self.before)
    }

    /// Whether the array holds exactly this and nothing was written beside it.
    pub fn holds(&self, wanted: &[T]) -> bool {
        self.content() == wanted && self.untouched_from(self.before.len())
    }

    /// Whether nothing was written beside the array, nor to the array from this place on.
    pub fn untouched_from(&self, start: usize) -> bool {
        let pages = self.pages();
        let beside = pages.are_unused(0, self.start) && pages.are_unused(self.end(), pages.length());
        beside && self.content()[start..] == self.before[start..]
    }
}

impl<T: Pattern> Kept for Lent<T> {
    fn untouched(&self) -> bool {
        Lent::untouched(self)
    }
}

impl<T: Pattern> Drop for Lent<T> {
    fn drop(&mut self) {
        if let Some(mut pages) = self.pages.take() {
            pages.mark_unused(0, pages.length());
            pages.give_back();
        }
    }
}

#[cfg(test)]
mod tests {
    use super::*;

    const CONTENT: [u32; 5] = [7, 0, u32::MAX, 3, 9];

    /// The same array behind the untouchable page and before it.
    fn both_ways() -> [Lent<u32>; 2] {
        [true, false].map(|behind| Lent::laid(CONTENT.to_vec(), behind))
    }

    #[test]
    fn an_array_lies_against_a_page() {
        let [behind, before] = both_ways();
        assert_eq!((behind.start, before.end()), (0, before.pages().length()));
        for lent in [behind, before] {
            assert_eq!(lent.content(), CONTENT);
            assert!(lent.untouched() && lent.holds(&CONTENT) && Kept::untouched(&lent));
        }
    }

    #[test]
    fn a_write_to_the_array_is_noticed() {
        for place in 0..CONTENT.len() {
            for mut lent in both_ways() {
                lent.part()[place] ^= 1 << 31;
                assert!(!lent.untouched() && !Kept::untouched(&lent) && !lent.holds(&CONTENT), "{place}");
                assert!(lent.untouched_from(place + 1) && !lent.untouched_from(place));
                let written = lent.content().to_vec();
                assert!(lent.holds(&written));
            }
        }
    }

    /// One byte before, one behind, and far away in the same pages.
    #[test]
    fn a_write_beside_the_array_is_noticed() {
        for lent in both_ways() {
            let (start, end, length) = (lent.start, lent.end(), lent.pages().length());
            let beside = [start.checked_sub(1), Some(end), Some(0), Some(length - 1), Some(length / 2)];
            for place in beside.into_iter().flatten().filter(|&place| place < length && !(start..end).contains(&place)) {
                unsafe { *lent.pages().at(place) ^= 1 };
                assert!(!lent.untouched() && !lent.holds(&CONTENT) && !lent.untouched_from(CONTENT.len()), "{place}");
                unsafe { *lent.pages().at(place) ^= 1 };
                assert!(lent.untouched());
            }
        }
    }

    #[test]
    fn another_length_does_not_hold() {
        for lent in both_ways() {
            assert!(!lent.holds(&CONTENT[..4]) && !lent.holds(&[7, 0, u32::MAX, 3, 9, 0]));
        }
    }

    #[test]
    fn an_empty_array_has_an_address_and_no_room() {
        for behind in [true, false] {
            let mut lent: Lent<u64> = Lent::laid(Vec::new(), behind);
            assert!(lent.untouched() && lent.holds(&[]) && lent.part().is_empty());
        }
    }

    /// The pages of a damaged array are clean for the next one.
    #[test]
    fn damage_does_not_stay() {
        for _ in 0..4 {
            let lent = Lent::laid(vec![1u8; 100], true);
            unsafe { *lent.pages().at(2000) = 0 };
            assert!(!lent.untouched());
        }
        assert!(Lent::laid(vec![1u8; 100], true).untouched());
    }

    #[test]
    fn arrays_lie_on_either_side_by_chance() {
        let mut random = Random::new(1);
        let lent: Vec<Lent<u32>> = (0..200).map(|_| Lent::new(3, &mut random)).collect();
        let behind = lent.iter().filter(|lent| lent.start == 0).count();
        assert!((60..140).contains(&behind));
    }
}
