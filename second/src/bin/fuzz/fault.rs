//! Tells the scene's seed where the processor or a sanitizer ends the program.

use std::ffi::{c_int, c_void};
use std::sync::atomic::{AtomicU64, Ordering};
use std::sync::OnceLock;

extern "C" {
    fn sigaction(signal: c_int, new: *const Action, old: *mut Action) -> c_int;
    fn write(file: c_int, bytes: *const c_void, length: usize) -> isize;
}

/// What a signal does, as the C library has it on x86-64.
#[repr(C)]
#[derive(Clone, Copy)]
struct Action {
    handler: usize,
    masked: [u64; 16],
    flags: c_int,
    restorer: usize,
}

const NO_ACTION: Action = Action { handler: 0, masked: [0; 16], flags: 0, restorer: 0 };
/// Illegal instruction, bus error, faulty division, segment fault.
const SIGNALS: [c_int; 4] = [4, 7, 8, 11];
/// The stack for signals: the usual one may have run out.
const ON_OWN_STACK: c_int = 0x0800_0000;
const STANDARD_ERROR: c_int = 2;

static SEED: AtomicU64 = AtomicU64::new(0);
/// What each signal did before.
static BEFORE: OnceLock<[Action; 4]> = OnceLock::new();

/// The scene that the calls from now on belong to.
pub fn at_scene(seed: u64) {
    SEED.store(seed, Ordering::Relaxed);
}

pub fn watch() {
    let handler = told as *const () as usize;
    let action = Action { handler, flags: ON_OWN_STACK, ..NO_ACTION };
    BEFORE.get_or_init(|| SIGNALS.map(|signal| exchange(signal, action)));
}

/// Gives what the signal did before.
fn exchange(signal: c_int, action: Action) -> Action {
    let mut before = NO_ACTION;
    // SAFETY: both actions are live, and the handler does what one may.
    assert_eq!(unsafe { sigaction(signal, &action, &mut before) }, 0);
    before
}

/// Puts back what was there before and returns, so that the fault comes again.
extern "C" fn told(signal: c_int) {
    tell();
    if let Some(before) = BEFORE.get() {
        for (_, &action) in SIGNALS.iter().zip(before).filter(|(&known, _)| known == signal) {
            exchange(signal, action);
        }
    }
}

/// Called by the address sanitizer, where it is built in, before it reports.
#[no_mangle]
extern "C" fn __asan_on_error() {
    tell();
}

/// Without memory of the heap, which may be broken.
fn tell() {
    let mut line = *b"FAULT: ended at seed                     \n";
    let end = line.len() - 1;
    let digits = &mut line[21..end];
    let mut rest = SEED.load(Ordering::Relaxed);
    for digit in digits.iter_mut().rev() {
        *digit = b'0' + (rest % 10) as u8;
        rest /= 10;
    }
    // SAFETY: the line is live.
    unsafe { write(STANDARD_ERROR, line.as_ptr().cast(), line.len()) };
}
