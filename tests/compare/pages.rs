//! Memory to lend: whole pages between two pages that cannot be touched, so that a read or a
//! write outside ends the program. Pages are used again, since mapping them takes long.
use std::cell::{Cell, RefCell};
use std::collections::HashMap;

/// Of the operating system.
mod system {
    pub const NO_ACCESS: i32 = 0;
    pub const READ_AND_WRITE: i32 = 3;
    pub const PRIVATE_AND_ANONYMOUS: i32 = 0x22;
    pub const THREAD_CLOCK: i32 = 3;
    pub const BUS_ERROR: i32 = 7;
    pub const SEGMENT_VIOLATION: i32 = 11;

    extern "C" {
        pub fn mmap(address: *mut u8, length: usize, protection: i32, flags: i32, file: i32, offset: i64) -> *mut u8;
        pub fn mprotect(address: *mut u8, length: usize, protection: i32) -> i32;
        pub fn munmap(address: *mut u8, length: usize) -> i32;
        pub fn signal(number: i32, handler: extern "C" fn(i32)) -> usize;
        pub fn write(file: i32, bytes: *const u8, length: usize) -> isize;
        pub fn clock_gettime(clock: i32, seconds_and_nanoseconds: *mut [i64; 2]) -> i32;
        pub fn _exit(status: i32) -> !;
    }
}

pub const PAGE: usize = 4096;

/// How many sets of pages of one size wait to be used again.
const WAITING: usize = 16;

/// What every byte of a page holds where nothing is lent: it depends on its place alone, is never
/// 0, and differs from those at its sides.
static UNUSED: [u8; PAGE] = {
    let mut bytes = [0; PAGE];
    let mut place = 0;
    while place < PAGE {
        bytes[place] = ((place * 167 + place / 256 * 31) % 256) as u8 | 1;
        place += 1;
    }
    bytes
};

thread_local! {
    static POOL: RefCell<HashMap<usize, Vec<Pages>>> = RefCell::new(HashMap::new());
    static CALL: Cell<&'static str> = const { Cell::new("no call") };
}

/// Some pages that may be read and written, with one before and one behind them that may not.
pub struct Pages {
    first: *mut u8,
    length: usize,
}

impl Pages {
    /// Pages with room for so many bytes, all of them unused.
    pub fn take(bytes: usize) -> Pages {
        let length = bytes.div_ceil(PAGE).max(1) * PAGE;
        let waiting = POOL.with_borrow_mut(|pool| pool.get_mut(&length).and_then(Vec::pop));
        waiting.unwrap_or_else(|| Pages::map(length))
    }

    /// New pages of this length, a multiple of a page's.
    pub fn map(length: usize) -> Pages {
        let whole = length + 2 * PAGE;
        // The mapping is new and its own, and its middle lies within it.
        let first = unsafe {
            let start = system::mmap(std::ptr::null_mut(), whole, system::NO_ACCESS, system::PRIVATE_AND_ANONYMOUS, -1, 0);
            assert!(start as isize != -1, "no pages are left");
            let first = start.add(PAGE);
            assert_eq!(system::mprotect(first, length, system::READ_AND_WRITE), 0, "pages cannot be opened");
            first
        };
        let mut pages = Pages { first, length };
        pages.mark_unused(0, length);
        pages
    }

    /// How many bytes lie between the two pages that cannot be touched.
    pub fn length(&self) -> usize {
        self.length
    }

    /// The address of a byte, or of the end. What lies there is read anew by whoever asks: the
    /// compiler is not to know that only this program writes to it.
    pub fn at(&self, place: usize) -> *mut u8 {
        assert!(place <= self.length);
        std::hint::black_box(unsafe { self.first.add(place) })
    }

    fn bytes(&self) -> &[u8] {
        unsafe { std::slice::from_raw_parts(self.at(0), self.length) }
    }

    /// Puts back what unused bytes hold.
    pub fn mark_unused(&mut self, from: usize, to: usize) {
        let bytes = unsafe { std::slice::from_raw_parts_mut(self.at(0), self.length) };
        for_each_page(from, to, |start, end| bytes[start..end].copy_from_slice(&UNUSED[start % PAGE..][..end - start]));
    }

    /// Whether the bytes from one place to another hold what unused ones do.
    pub fn are_unused(&self, from: usize, to: usize) -> bool {
        let bytes = self.bytes();
        let mut unused = true;
        for_each_page(from, to, |start, end| unused &= bytes[start..end] == UNUSED[start % PAGE..][..end - start]);
        unused
    }

    /// Gives the pages back; all of their bytes are unused again.
    pub fn give_back(self) {
        POOL.with_borrow_mut(|pool| {
            let waiting = pool.entry(self.length).or_default();
            if waiting.len() < WAITING {
                waiting.push(self);
            } else {
                self.unmap();
            }
        });
    }

    fn unmap(self) {
        let unmapped = unsafe { system::munmap(self.first.sub(PAGE), self.length + 2 * PAGE) };
        assert_eq!(unmapped, 0, "pages cannot be given back");
    }
}

/// Cuts a run of bytes at the ends of pages.
fn for_each_page(from: usize, to: usize, mut visit: impl FnMut(usize, usize)) {
    let mut start = from;
    while start < to {
        let end = (start / PAGE + 1) * PAGE;
        visit(start, end.min(to));
        start = end;
    }
}

/// How long this thread has run, in seconds: on a busy machine less than what has passed.
pub fn processor_time() -> f64 {
    let mut time = [0; 2];
    assert_eq!(unsafe { system::clock_gettime(system::THREAD_CLOCK, &mut time) }, 0);
    time[0] as f64 + time[1] as f64 / 1e9
}

/// Says which call this thread makes next, for the message below.
pub fn calling(name: &'static str) {
    CALL.set(name);
}

/// From now on a touch of a page that cannot be touched is told before the program ends.
pub fn tell_of_crashes() {
    unsafe {
        system::signal(system::SEGMENT_VIOLATION, crashed);
        system::signal(system::BUS_ERROR, crashed);
    }
}

/// Nothing here needs memory, which might be what is broken.
extern "C" fn crashed(_: i32) {
    for text in ["difference: crashed outside of what was lent, in ", CALL.get(), "\n"] {
        unsafe { system::write(1, text.as_ptr(), text.len()) };
    }
    unsafe { system::_exit(101) };
}

#[cfg(test)]
mod tests {
    use super::*;

    #[test]
    fn pages_come_back_unused() {
        let mut pages = Pages::take(5000);
        assert_eq!(pages.length(), 2 * PAGE);
        assert!(pages.are_unused(0, 2 * PAGE));
        for place in [0, 1, PAGE - 1, PAGE, 2 * PAGE - 1] {
            unsafe { *pages.at(place) ^= 1 };
            assert!(!pages.are_unused(0, 2 * PAGE) && !pages.are_unused(place, place + 1));
            assert!(pages.are_unused(0, place) && pages.are_unused(place + 1, 2 * PAGE));
            pages.mark_unused(place, place + 1);
            assert!(pages.are_unused(0, 2 * PAGE));
        }
        let first = pages.at(0);
        pages.give_back();
        assert_eq!(Pages::take(4097).at(0), first);
    }

    /// A program of its own for each touch, which must not live through it.
    #[test]
    fn a_touch_outside_ends_the_program() {
        const TOUCH: &str = "SECOND_TOUCH";
        if let Ok(place) = std::env::var(TOUCH) {
            let pages = Pages::take(1);
            let before = place == "before";
            let outside = if before { pages.at(0).wrapping_sub(1) } else { pages.at(PAGE) };
            std::hint::black_box(unsafe { outside.read_volatile() });
            return;
        }
        for place in ["before", "behind"] {
            let this = std::env::current_exe().expect("it runs");
            let test = "pages::tests::a_touch_outside_ends_the_program";
            let run = std::process::Command::new(this).args([test, "--exact"]).env(TOUCH, place).output();
            assert!(!run.expect("it starts").status.success(), "{place}");
        }
    }
}
