// SPDX-License-Identifier: Apache-2.0
//! The processor's float mode around a call.

use core::arch::asm;
use core::mem::MaybeUninit;

// MXCSR: bits 0-5 are flags, 6 is "denormals are zero", 7-12 are the exception masks, 13-14 the
// rounding, 15 "flush to zero".
const CONTROL: u32 = 0xffc0;
const DEFAULT: u32 = 0x1f80;

/// Runs `f` in the default float mode (rounding to nearest, subnormals kept, exceptions masked),
/// and gives the caller's mode back.
///
/// The renderer's promises are about that mode; audio threads often run in another. Every call of
/// this crate that computes does this itself; it is public for hosts on [`crate::sys`]. A panic of
/// `f` ends the process where the mode had to be changed.
///
/// ```
/// let version = voqlisna::with_default_floats(|| voqlisna::sys::hall_version());
/// assert_eq!(version, voqlisna::sys::VERSION);
/// ```
#[inline]
pub fn with_default_floats<F: FnOnce() -> R, R>(f: F) -> R {
    let mode = mode();
    if mode & CONTROL == DEFAULT {
        return f();
    }
    let mut job = Job {
        f: MaybeUninit::new(f),
        r: MaybeUninit::uninit(),
    };
    // Setting the mode, the call and restoring stand in one block, since a block must leave the
    // mode as it found it.
    // SAFETY: `run` takes the one pointer that it gets here, to a job not run yet, and does not
    // unwind; the stack is aligned for a call where an asm! block starts; r12 is kept by the
    // callee; the mode at the end is that of the start.
    unsafe {
        asm!(
            "ldmxcsr [{default}]",
            "call {run}",
            "ldmxcsr [r12]",
            default = in(reg) &DEFAULT,
            run = sym run::<F, R>,
            in("r12") &mode,
            in("rdi") &mut job,
            clobber_abi("sysv64"),
        );
    }
    // SAFETY: `run` has returned, so it has written the result.
    unsafe { job.r.assume_init() }
}

fn mode() -> u32 {
    let mut mode = 0;
    // SAFETY: writes the four bytes of `mode` and nothing else.
    unsafe { asm!("stmxcsr [{}]", in(reg) &mut mode, options(nostack, preserves_flags)) };
    mode
}

struct Job<F, R> {
    f: MaybeUninit<F>,
    r: MaybeUninit<R>,
}

/// # Safety
///
/// Once for each job: `f` is moved out of it.
unsafe extern "sysv64" fn run<F: FnOnce() -> R, R>(job: &mut Job<F, R>) {
    // SAFETY: `f` is initialised when the job is made, and this is the one read of it.
    let f = unsafe { job.f.assume_init_read() };
    job.r.write(f());
}
