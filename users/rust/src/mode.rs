//! The floating-point mode. The library is proved in the default one: rounding to nearest even, no number flushed to zero, no exception that traps. Every
//! call goes into it and back out of it.
#[cfg(not(target_arch = "x86_64"))]
compile_error!("libkeldurap.a is made for x86_64, and so is the change of the floating-point mode around its calls");

use core::arch::asm;

/// The default of the control and status register: exceptions masked and none flagged, nearest even, no flushing.
const DEFAULT: u32 = 0x1f80;

/// The default mode, while it lives; then the caller's mode and exception flags again.
struct DefaultMode {
    callers: u32,
}

impl DefaultMode {
    fn enter() -> DefaultMode {
        let mut callers = 0;
        // SAFETY: the register is stored in a number of its 32 bits, and loaded with its default.
        unsafe {
            asm!("stmxcsr [{}]", in(reg) &mut callers, options(nostack));
            asm!("ldmxcsr [{}]", in(reg) &DEFAULT, options(nostack));
        }
        DefaultMode { callers }
    }
}

impl Drop for DefaultMode {
    fn drop(&mut self) {
        // SAFETY: the register is loaded with what it held.
        unsafe { asm!("ldmxcsr [{}]", in(reg) &self.callers, options(nostack)) }
    }
}

/// A call in the default mode.
pub fn in_default_mode<T>(call: impl FnOnce() -> T) -> T {
    let _mode = DefaultMode::enter();
    call()
}
