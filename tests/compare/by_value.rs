//! Calls that take a struct by value. Such a struct lies on the stack, where much more can be read
//! behind it. Here the call is made on a stack of its own, whose pages end with the struct: behind
//! it lies a page that cannot be touched. (This is the convention of x86-64, for which the library
//! is built. Up to 12 bytes behind a struct belong to it by that convention.)
use crate::pages::Pages;
use std::arch::asm;
use std::mem::MaybeUninit;

/// Room for a struct and for the call below it: more than any header states.
const ROOM: usize = 1 << 17;

thread_local! {
    static STACK: Pages = Pages::map(ROOM);
}

/// Whole numbers and addresses go over in these registers: rdi, rsi, rdx, rcx, r8, r9.
type Registers = [usize; 6];

/// Calls a function with a struct by value and these registers, and gives what it returns in rax.
///
/// # Safety
/// The function takes exactly this, and the registers hold what it asks for.
unsafe fn call<S: Copy>(function: *const (), given: &S, registers: Registers) -> usize {
    // A struct takes a multiple of 8 bytes, and begins at a multiple of 16.
    let start = STACK.with(|stack| stack.at((ROOM - size_of::<S>().next_multiple_of(8)) & !15));
    std::ptr::copy_nonoverlapping(given, start.cast(), 1);
    let [rdi, rsi, rdx, rcx, r8, r9] = registers;
    let returned;
    asm!(
        "mov r12, rsp",
        "mov rsp, {start}",
        "call {function}",
        "mov rsp, r12",
        start = in(reg) start,
        function = in(reg) function,
        inout("rdi") rdi => _,
        inout("rsi") rsi => _,
        inout("rdx") rdx => _,
        inout("rcx") rcx => _,
        inout("r8") r8 => _,
        inout("r9") r9 => _,
        lateout("rax") returned,
        out("r12") _,
        clobber_abi("C"),
    );
    returned
}

/// A function that returns a struct: the first register says where it goes.
///
/// # Safety
/// As above; the numbers are what the function takes besides the struct.
pub unsafe fn giving<S: Copy, R>(function: *const (), given: &S, numbers: [usize; 5]) -> R {
    let mut result = MaybeUninit::<R>::uninit();
    let [a, b, c, d, e] = numbers;
    call(function, given, [result.as_mut_ptr() as usize, a, b, c, d, e]);
    result.assume_init()
}

/// A function that returns a number.
///
/// # Safety
/// As above.
pub unsafe fn telling<S: Copy>(function: *const (), given: &S, numbers: [usize; 5]) -> u32 {
    let [a, b, c, d, e] = numbers;
    call(function, given, [a, b, c, d, e, 0]) as u32
}

#[cfg(test)]
mod tests {
    use super::*;

    #[derive(Clone, Copy, PartialEq, Debug)]
    #[repr(C)]
    struct Large {
        numbers: [u32; 1001],
    }

    extern "C" fn changed(mut given: Large, place: u32, number: u32) -> Large {
        given.numbers[place as usize] = number;
        given
    }

    extern "C" fn sum(given: Large, more: u32) -> u32 {
        given.numbers.iter().sum::<u32>() + more
    }

    #[test]
    fn structs_and_numbers_go_over() {
        let given = Large { numbers: std::array::from_fn(|k| k as u32) };
        let after: Large = unsafe { giving(changed as *const (), &given, [1000, 7, 0, 0, 0]) };
        assert_eq!(after.numbers[..1000], given.numbers[..1000]);
        assert_eq!(after.numbers[1000], 7);
        assert_eq!(unsafe { telling(sum as *const (), &given, [5, 0, 0, 0, 0]) }, 1000 * 1001 / 2 + 5);
    }

    extern "C" fn reads_behind(given: Large, words: u32) -> u32 {
        let behind = (&raw const given).cast::<u32>().wrapping_add(1001 + words as usize);
        unsafe { behind.read_volatile() }
    }

    /// A program of its own, which must not live through it.
    #[test]
    fn a_read_behind_a_struct_ends_the_program() {
        const READ: &str = "SECOND_READ_BEHIND";
        let given = Large { numbers: [0; 1001] };
        if std::env::var(READ).is_ok() {
            unsafe { telling(reads_behind as *const (), &given, [3, 0, 0, 0, 0]) };
            return;
        }
        let this = std::env::current_exe().expect("it runs");
        let test = "by_value::tests::a_read_behind_a_struct_ends_the_program";
        let run = std::process::Command::new(this).args([test, "--exact"]).env(READ, "1").output();
        assert!(!run.expect("it starts").status.success());
    }
}
