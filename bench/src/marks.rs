//! Marks in the stream of instructions, between which a counter counts. What comes after a mark belongs to that mark's phase.
//! For the stepper (step.rs) and the qemu plugin (icount.c) a mark is a system call that Linux has not, with the phase as its argument. For
//! valgrind it is the request that callgrind writes its count down and starts again from 0: instructions that natively do nothing.

/// The phase between two marks with nothing between them. Phases are below 256, and 0 is what is not counted.
pub const MARKS: u64 = 255;

#[derive(Clone, Copy, PartialEq)]
pub enum Counter {
    None,
    Call,
    Valgrind,
}

impl Counter {
    /// BENCH_COUNT: call, valgrind, or not set.
    pub fn asked() -> Counter {
        match std::env::var("BENCH_COUNT").as_deref() {
            Err(_) => Counter::None,
            Ok("call") if cfg!(target_arch = "x86_64") => Counter::Call,
            Ok("valgrind") if cfg!(target_arch = "x86_64") => Counter::Valgrind,
            Ok(other) => panic!("BENCH_COUNT is call or valgrind, of the x86-64 program alone, and not {other}"),
        }
    }

    /// Out of line, so that every mark is the same instructions.
    #[inline(never)]
    pub fn mark(self, phase: u64) {
        match self {
            Counter::None => {}
            Counter::Call => call(phase),
            Counter::Valgrind => request(),
        }
    }
}

#[cfg(target_arch = "x86_64")]
fn call(phase: u64) {
    // unknown to Linux, which answers ENOSYS
    unsafe { std::arch::asm!("syscall", inout("rax") 0x5afe_u64 => _, in("rdi") phase, out("rcx") _, out("r11") _) };
}

#[cfg(target_arch = "x86_64")]
fn request() {
    // VG_USERREQ__DUMP_STATS of callgrind.h: the letters C and T, and request 0, behind valgrind.h's five instructions
    let words = [(b'C' as u64) << 24 | (b'T' as u64) << 16, 0, 0, 0, 0, 0];
    unsafe {
        std::arch::asm!("rol rdi, 3", "rol rdi, 13", "rol rdi, 61", "rol rdi, 51", "xchg rbx, rbx",
            in("rax") words.as_ptr(), inout("rdx") 0u64 => _);
    }
}

#[cfg(not(target_arch = "x86_64"))]
fn call(_: u64) {}

#[cfg(not(target_arch = "x86_64"))]
fn request() {}
