//! step PROGRAM WORDS..: runs a program on this x86-64 processor, one instruction at a time between its marks (marks.rs), and prints on
//! standard error how many there were in each phase but 0. The processor itself stops after each instruction, so this is its own count.
use std::ffi::{c_char, c_int, c_long, c_void, CString};
use std::process::exit;
use std::ptr::null_mut;

extern "C" {
    fn fork() -> c_int;
    fn execvp(file: *const c_char, words: *const *const c_char) -> c_int;
    fn ptrace(request: c_long, pid: c_int, place: *mut c_void, data: *mut c_void) -> c_long;
    fn waitpid(pid: c_int, status: *mut c_int, options: c_int) -> c_int;
}

// the requests of <sys/ptrace.h>, and the places of registers in <sys/user.h>
const TRACE_ME: c_long = 0;
const PEEK_USER: c_long = 3;
const ONE_STEP: c_long = 9;
const TO_SYSTEM_CALL: c_long = 24;
const RDI: usize = 8 * 14;
const ORIG_RAX: usize = 8 * 15;
const RIP: usize = 8 * 16;
/// A stop by SIGTRAP, in waitpid's status.
const STOPPED: c_int = 5 << 8 | 0x7f;
/// The system call that is a mark.
const MARK: c_long = 0x5afe;

struct Traced(c_int);

impl Traced {
    fn start(words: &[CString]) -> Traced {
        let pointers: Vec<_> = words.iter().map(|w| w.as_ptr()).chain([std::ptr::null()]).collect();
        match unsafe { fork() } {
            0 => unsafe {
                if ptrace(TRACE_ME, 0, null_mut(), null_mut()) == 0 {
                    execvp(pointers[0], pointers.as_ptr());
                }
                exit(127)
            },
            pid => Traced(pid),
        }
    }

    /// Goes on till the next stop: false where the program ended, and ended well.
    fn go(&self, how: c_long) -> bool {
        if unsafe { ptrace(how, self.0, null_mut(), null_mut()) } != 0 {
            fail("the program can not be stepped here");
        }
        self.stops()
    }

    fn stops(&self) -> bool {
        let mut status = 0;
        match (unsafe { waitpid(self.0, &mut status, 0) } == self.0, status) {
            (true, STOPPED) => true,
            (true, 0) => false,
            (true, s) => fail(&format!("the program was not run to its end (status {s:#x})")),
            (false, _) => fail("the program could not be started"),
        }
    }

    fn register(&self, place: usize) -> c_long {
        unsafe { ptrace(PEEK_USER, self.0, place as *mut c_void, null_mut()) }
    }
}

fn fail(why: &str) -> ! {
    eprintln!("step: {why}");
    exit(1)
}

/// Runs at full speed to the next mark: its phase and the place behind it, or nothing where the program ends.
fn next_mark(program: &Traced) -> Option<(usize, c_long)> {
    loop {
        if !program.go(TO_SYSTEM_CALL) {
            return None;
        }
        let mark =
            (program.register(ORIG_RAX) == MARK).then(|| (program.register(RDI) as usize & 255, program.register(RIP)));
        // each system call stops twice, before and after
        if !program.go(TO_SYSTEM_CALL) {
            return None;
        }
        if mark.is_some() {
            return mark;
        }
    }
}

/// Steps from behind a mark to behind the next one, which is at the same place: how many steps, and the next phase.
fn steps(program: &Traced, place: c_long) -> (u64, usize) {
    let mut count = 0;
    loop {
        if !program.go(ONE_STEP) {
            fail("the program ended in a phase");
        }
        count += 1;
        if program.register(RIP) == place {
            return (count, program.register(RDI) as usize & 255);
        }
    }
}

fn main() {
    let words: Vec<_> = std::env::args().skip(1).map(|w| CString::new(w).expect("no argument has a 0")).collect();
    if words.is_empty() {
        eprintln!("usage: step PROGRAM WORDS..");
        exit(2);
    }
    let program = Traced::start(&words);
    program.stops();
    let mut counts = [0; 256];
    while let Some((mut phase, place)) = next_mark(&program) {
        while phase != 0 {
            let (count, next) = steps(&program, place);
            counts[phase] += count;
            phase = next;
        }
    }
    for (phase, count) in counts.iter().enumerate().filter(|(_, count)| **count != 0) {
        eprintln!("icount phase {phase}: {count}");
    }
}
