//! What the standard library doesn't offer: waiting for a signal, and whether standard input and
//! output were open when the program started. The command's only unsafe code.
//!
//! The declarations and numbers are those of Linux on x86-64.

#![allow(unsafe_code)]

use std::ffi::c_int;
use std::sync::atomic::{AtomicBool, Ordering};

/// `sigset_t`: signal n is bit n - 1.
#[repr(C)]
struct SignalSet([u64; 16]);

extern "C" {
    fn fcntl(descriptor: c_int, command: c_int, ...) -> c_int;
    fn pthread_sigmask(how: c_int, set: *const SignalSet, before: *mut SignalSet) -> c_int;
    fn sigwait(set: *const SignalSet, signal: *mut c_int) -> c_int;
    fn raise(signal: c_int) -> c_int;
}

const F_GETFD: c_int = 1;
const SIG_BLOCK: c_int = 0;
const SIG_UNBLOCK: c_int = 1;

fn set_of(signals: &[c_int]) -> SignalSet {
    let mut set = SignalSet([0; 16]);
    signals.iter().for_each(|signal| set.0[0] |= 1 << (signal - 1));
    set
}

fn change_mask(how: c_int, signals: &[c_int]) {
    // SAFETY: the set lives in this frame, and a null pointer asks for no former set.
    unsafe { pthread_sigmask(how, &set_of(signals), std::ptr::null_mut()) };
}

/// Holds these signals back from this thread and from those that it starts from now on.
pub fn hold(signals: &[c_int]) {
    change_mask(SIG_BLOCK, signals);
}

/// Waits for one of these signals, which every thread holds back.
pub fn wait(signals: &[c_int]) -> c_int {
    let mut signal = 0;
    // SAFETY: the set and the answer live in this frame.
    unsafe { sigwait(&set_of(signals), &mut signal) };
    signal
}

/// Ends the program by a signal, as if it had never been held back.
pub fn end_by(signal: c_int) -> ! {
    change_mask(SIG_UNBLOCK, &[signal]);
    // SAFETY: it takes a number; the signal's action is the default one.
    unsafe { raise(signal) };
    std::process::exit(128 + signal)
}

static INPUT_WAS_OPEN: AtomicBool = AtomicBool::new(true);
static OUTPUT_WAS_OPEN: AtomicBool = AtomicBool::new(true);

/// Run before `main`: the standard library opens /dev/null in place of a closed stream, so that
/// afterwards nobody can tell.
#[used]
#[link_section = ".init_array"]
static BEFORE_MAIN: extern "C" fn() = note_streams;

extern "C" fn note_streams() {
    for (descriptor, was_open) in [(0, &INPUT_WAS_OPEN), (1, &OUTPUT_WAS_OPEN)] {
        // SAFETY: the command takes no further argument and changes nothing.
        let open = unsafe { fcntl(descriptor, F_GETFD) } != -1;
        was_open.store(open, Ordering::Relaxed);
    }
}

/// Whether standard input was open when the program started.
pub fn input_was_open() -> bool {
    INPUT_WAS_OPEN.load(Ordering::Relaxed)
}

/// Whether standard output was open when the program started.
pub fn output_was_open() -> bool {
    OUTPUT_WAS_OPEN.load(Ordering::Relaxed)
}
