//! A stack of 64 KiB, of which can be told what a call has written to.

use crate::library::linked;
use std::alloc::{alloc, Layout};
use std::arch::asm;
use std::env;
use std::hint::black_box;
use std::os::unix::process::ExitStatusExt;
use std::process::{self, Command};

const STACK: usize = 64 << 10;
/// Below the stack: a call that takes more than the stack is killed there.
const GUARD: usize = 4 << 10;
const NO_ACCESS: i32 = 0;
/// What the stack holds before a call.
const UNUSED: u8 = 0xA5;

extern "C" {
    fn mprotect(start: *mut u8, length: usize, access: i32) -> i32;
}

/// What a call gave, and how many bytes of the stack it wrote to, its return address among them.
pub struct Ran {
    pub given: usize,
    pub bytes: usize,
}

pub struct Small {
    lowest: *mut u8,
}

impl Small {
    /// It is kept until the program ends.
    pub fn new() -> Option<Small> {
        let layout = Layout::from_size_align(GUARD + STACK, GUARD).ok()?;
        // The layout has a size, and its beginning is a whole page.
        unsafe {
            let guard = alloc(layout);
            let guarded = !guard.is_null() && mprotect(guard, GUARD, NO_ACCESS) == 0;
            guarded.then(|| Small {
                lowest: guard.add(GUARD),
            })
        }
    }

    pub fn read(&mut self, stream: &[u8], table: &mut [u32]) -> Ran {
        let (start, length) = (stream.as_ptr() as usize, stream.len());
        let (rows, numbers) = (table.as_mut_ptr() as usize, table.len());
        let call = linked::bulk_bench_read as *const ();
        // The slices are valid for their lengths, and the call asks nothing else.
        unsafe { self.call(call, [start, length, rows, numbers, 0, 0]) }
    }

    pub fn write(&mut self, stream: &[u8], table: &mut [u32], output: &mut [u8]) -> Ran {
        let (start, length) = (stream.as_ptr() as usize, stream.len());
        let (rows, numbers) = (table.as_mut_ptr() as usize, table.len());
        let (bytes, room) = (output.as_mut_ptr() as usize, output.len());
        let call = linked::bulk_bench_write as *const ();
        // As above.
        unsafe { self.call(call, [start, length, rows, numbers, bytes, room]) }
    }

    /// Of the stream.
    pub fn item(&mut self, stream: &[u8], k: usize) -> Ran {
        let (start, length) = (stream.as_ptr() as usize, stream.len());
        let call = linked::bulk_bench_item as *const ();
        // As above.
        unsafe { self.call(call, [start, length, start, length, 0, k]) }
    }

    /// Calls a function of C with arguments in registers.
    unsafe fn call(&mut self, function: *const (), arguments: [usize; 6]) -> Ran {
        let [a, b, c, d, e, f] = arguments;
        let given: usize;
        self.lowest.write_bytes(UNUSED, STACK);
        // The stack grows down from its end. r12 to r14 are the same after the call.
        asm!(
            "mov r12, rsp",
            "mov rsp, r13",
            "call r14",
            "mov rsp, r12",
            in("r13") self.lowest.add(STACK),
            in("r14") function,
            in("rdi") a, in("rsi") b, in("rdx") c, in("rcx") d, in("r8") e, in("r9") f,
            out("r12") _,
            lateout("rax") given,
            clobber_abi("C"),
        );
        let unused = (0..STACK).take_while(|&i| *self.lowest.add(i) == UNUSED);
        Ran {
            given,
            bytes: STACK - unused.count(),
        }
    }
}

/// The word by which this program takes more than the stack.
pub const TOO_DEEP: &str = "--too-deep";

/// Ends the program: killed, or by itself if the stack does not end.
pub fn take_too_much() -> ! {
    if let Some(mut small) = Small::new() {
        let call = levels as *const ();
        // The function takes a number.
        unsafe { small.call(call, [STACK / 8, 0, 0, 0, 0, 0]) };
    }
    process::exit(0)
}

/// Each takes eight bytes at least.
extern "C" fn levels(left: usize) -> usize {
    if left == 0 {
        return 0;
    }
    black_box(levels(black_box(left - 1))) + 1
}

/// Whether the stack ends: this program, run to take more than it, is killed.
pub fn ends() -> Result<String, String> {
    let run = env::current_exe().and_then(|program| Command::new(program).arg(TOO_DEEP).status());
    let signal = run.ok().and_then(|status| status.signal());
    match signal {
        Some(signal) => Ok(format!("killed by signal {signal}")),
        None => Err("not killed".to_string()),
    }
}
