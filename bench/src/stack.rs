//! How deep the stack goes below a driver, which boots a store and makes calls on
//! it: each runs in a thread on a stack of ours, and what it wrote over is counted.

use std::{ffi::c_void, mem::MaybeUninit, ptr};

use crate::{
    calls::{loans, FIRST, PAGE},
    rattle::{self, Calls, Loans},
};

const STACK: usize = 256 * 1024;

/// Unlikely in a frame, and no number of eight such bytes is an address.
const PAINT: u8 = 0xa5;

#[repr(C, align(64))]
struct Attributes([u64; 8]);

extern "C" {
    fn pthread_attr_init(attributes: *mut Attributes) -> i32;
    fn pthread_attr_setstack(attributes: *mut Attributes, stack: *mut c_void, size: usize) -> i32;
    fn pthread_create(
        thread: *mut u64,
        attributes: *const Attributes,
        start: extern "C" fn(*mut c_void) -> *mut c_void,
        argument: *mut c_void,
    ) -> i32;
    fn pthread_join(thread: u64, answer: *mut *mut c_void) -> i32;
}

#[repr(align(4096))]
struct Stack([u8; STACK]);

struct Run<'a> {
    driver: Calls,
    loans: &'a mut Loans,
    number: u64,
}

extern "C" fn start(run: *mut c_void) -> *mut c_void {
    // Safety: `depth` lends a run until the thread has ended.
    let run = unsafe { &mut *run.cast::<Run>() };
    (run.driver)(run.loans, run.number, 1);
    ptr::null_mut()
}

/// The bytes of a painted stack that the run wrote over, the thread's own at its top among them.
fn depth(driver: Calls, loans: &mut Loans, number: u64) -> usize {
    let mut stack = Box::new(Stack([PAINT; STACK]));
    let mut run = Run { driver, loans, number };
    let mut attributes = MaybeUninit::uninit();
    let mut thread = 0;
    // Safety: the stack, the attributes and the run outlive the thread, which is joined here.
    unsafe {
        assert_eq!(pthread_attr_init(attributes.as_mut_ptr()), 0);
        let lowest = stack.0.as_mut_ptr().cast();
        assert_eq!(pthread_attr_setstack(attributes.as_mut_ptr(), lowest, STACK), 0);
        let argument = ptr::from_mut(&mut run).cast();
        assert_eq!(pthread_create(&mut thread, attributes.as_ptr(), start, argument), 0);
        assert_eq!(pthread_join(thread, ptr::null_mut()), 0);
    }
    STACK - stack.0.iter().take_while(|&&byte| byte == PAINT).count()
}

pub fn run() {
    println!("\n{:<39}{:>12}", "stack below a boot and calls, bytes", "Rattle");
    let nothing: Calls = |_, _, _| 0;
    let row = |name: &str, pages: usize, driver: Calls, number: u64| {
        let mut loans = loans(pages);
        let own = depth(nothing, &mut loans, number);
        println!("{name:<39}{:>12}", depth(driver, &mut loans, number) - own);
    };
    row("find", 1024, rattle::finds, FIRST);
    row("grant and free", 1024, rattle::grants_and_frees, 0);
    row("grant that splits 1 GiB, and free", 262_144, rattle::grants_and_frees, 0);
    row("grant and zero", 1024, rattle::zero, PAGE as u64);
    row("grant and fill", 1024, rattle::fill, PAGE as u64);
    row("two grants and copy", 1024, rattle::copy, PAGE as u64);
}
