//! Document 01's marked case on tables in a `static`, a label of it handed back twice, its picture, then a restart, with no std, no heap
//! and no C library. The exit status is 0 where every answer is the documents', else the number of the first that is not.
#![no_std]
#![no_main]

use core::arch::global_asm;
use core::panic::PanicInfo;
use core::ptr::addr_of_mut;
use treadwharf::{size2, AllocId, Allocation, Atlas, Held, Rectangle, Refusal, Tables, FILE_MOST};

/// All zeros: no room in the image, and never on the stack.
static mut TABLES: Tables = Tables::new();
static mut FILE: [u8; FILE_MOST] = [0; FILE_MOST];

fn given(id: u32, left: i32, right: i32) -> Result<Allocation, Refusal> {
    Ok(Allocation { id: AllocId::deserialize(id), rectangle: Rectangle { left, top: 0, right, bottom: 8 } })
}

fn marked(atlas: &mut Atlas<&'static mut Tables>) -> i32 {
    let answers = [
        atlas.is_empty() && atlas.size() == size2(64, 64),
        atlas.allocate(size2(10, 7)) == given(4097, 32, 42),
        atlas.allocate(size2(20, 7)) == given(8193, 42, 62),
        atlas.deallocate(AllocId::deserialize(4097)) == Ok(()),
        atlas.deallocate(AllocId::deserialize(4097)) == Err(Refusal::NotHeld),
        atlas.deallocate(AllocId::deserialize(8193)) == Ok(()),
        atlas.allocate(size2(10, 7)) == given(16_781_312, 32, 42),
        atlas.deallocate(AllocId::deserialize(4097)) == Err(Refusal::Stale),
        atlas.allocated_space() == 80 && atlas.free_space() == 4016,
        atlas.is_sound() && atlas.fits(),
    ];
    answers.iter().position(|right| !right).map_or(0, |place| place as i32 + 1)
}

/// One label: seven lines. A buffer a byte too short is refused.
fn drawn(atlas: &Atlas<&'static mut Tables>, buffer: &mut [u8]) -> bool {
    let Ok(length) = atlas.picture(buffer).map(str::len) else { return false };
    let short = buffer.get_mut(..length.saturating_sub(1)).map(|short| atlas.picture(short).err());
    length == 355 && short == Some(Some(Refusal::Output))
}

/// Written, lost and read back with the list; the label that was given after the writing is given again.
fn restarted(mut atlas: Atlas<&'static mut Tables>, buffer: &mut [u8]) -> Result<bool, Refusal> {
    let bytes = atlas.write(buffer)?;
    let file = buffer.get(..bytes).unwrap_or(&[]);
    let Ok(list) = <[Held; 1]>::try_from(atlas.held()) else { return Ok(false) };
    let late = atlas.allocate(size2(20, 7))?;
    let tables = atlas.into_parts();
    tables.header.fill(0);
    let mut atlas = Atlas::read(tables, file, &list)?;
    Ok(atlas.allocated_space() == 80 && atlas.held() == list && atlas.allocate(size2(20, 7))? == late)
}

#[no_mangle]
extern "C" fn run() -> i32 {
    // SAFETY: this runs once, and nothing else names TABLES or FILE
    let (tables, file) = unsafe { (&mut *addr_of_mut!(TABLES), &mut *addr_of_mut!(FILE)) };
    let Ok(mut atlas) = Atlas::new(tables, size2(64, 64)) else { return 100 };
    match marked(&mut atlas) {
        0 if !drawn(&atlas, file) => 98,
        0 if restarted(atlas, file) == Ok(true) => 0,
        0 => 99,
        wrong => wrong,
    }
}

/// What the archive asks for. Targets with no C library have this and the next from compiler_builtins; this program is told to do without.
#[no_mangle]
unsafe extern "C" fn memset(to: *mut u8, byte: i32, count: usize) -> *mut u8 {
    for place in 0..count {
        // volatile, or the compiler would make a call of memset of this loop
        unsafe { to.add(place).write_volatile(byte as u8) };
    }
    to
}

/// The archive asks for it in a picture, and the wrapper in a read: it copies the list.
#[no_mangle]
unsafe extern "C" fn memcpy(to: *mut u8, from: *const u8, count: usize) -> *mut u8 {
    for place in 0..count {
        unsafe { to.add(place).write_volatile(*from.add(place)) };
    }
    to
}

extern "C" {
    fn leave(status: i32) -> !;
}

#[panic_handler]
fn panicked(_: &PanicInfo) -> ! {
    unsafe { leave(101) }
}

// Linux starts a program at _start; `leave` is its exit call.
#[cfg(target_arch = "x86_64")]
global_asm!(
    ".globl _start, leave",
    "_start: xor ebp, ebp",
    "and rsp, -16",
    "call run",
    "mov edi, eax",
    "leave: mov eax, 60",
    "syscall",
);
#[cfg(target_arch = "aarch64")]
global_asm!(".globl _start, leave", "_start: bl run", "leave: mov x8, #93", "svc #0");
