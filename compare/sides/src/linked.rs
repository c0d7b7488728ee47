//! The port's exported functions, linked from the library that TRACE_LIB named.

use std::process;
use std::sync::atomic::{AtomicUsize, Ordering};
use std::thread;
use std::time::Duration;

/// Room for a call's buffer or data, and for the bytes of a reply: as much as the port's program has.
const ROOM: usize = 3 * 1024 * 1024;
const REPLY: usize = 65_536;
/// More than this beyond the expected trace shows as a difference anyway.
const MORE: usize = 4_096;
/// A case that takes longer hangs.
const LIMIT: Duration = Duration::from_secs(20);

/// A slice is passed as its address and its length: the text, the room, the reply and what is written.
type TraceCase =
    unsafe extern "C" fn(*const u8, usize, *mut u8, usize, *mut u8, usize, *mut u8, usize) -> usize;

#[cfg(linked)]
mod port {
    unsafe extern "C" {
        pub fn nor_trace_case(
            text: *const u8,
            text_len: usize,
            room: *mut u8,
            room_len: usize,
            reply: *mut u8,
            reply_len: usize,
            out: *mut u8,
            out_len: usize,
        ) -> usize;

        pub fn nand_trace_case(
            text: *const u8,
            text_len: usize,
            room: *mut u8,
            room_len: usize,
            reply: *mut u8,
            reply_len: usize,
            out: *mut u8,
            out_len: usize,
        ) -> usize;
    }
}

pub struct Linked {
    function: TraceCase,
    room: Vec<u8>,
    reply: Vec<u8>,
}

/// The cases begun, for the watch.
static BEGUN: AtomicUsize = AtomicUsize::new(0);

impl Linked {
    /// The function of the NOR or the NAND, if the library was linked.
    pub fn new(nand: bool) -> Option<Self> {
        let function = function(nand)?;
        thread::spawn(watch);
        Some(Self {
            function,
            room: vec![0; ROOM],
            reply: vec![0; REPLY],
        })
    }

    /// What the function writes for a case whose trace should have this length.
    pub fn trace(&mut self, case: &[u8], expected: usize) -> Vec<u8> {
        BEGUN.fetch_add(1, Ordering::Relaxed);
        let mut out = vec![0; expected + MORE];
        let (room, reply) = (&mut self.room, &mut self.reply);
        // SAFETY: the four slices are apart from each other, and live until the function returns.
        let length = unsafe {
            (self.function)(
                case.as_ptr(),
                case.len(),
                room.as_mut_ptr(),
                room.len(),
                reply.as_mut_ptr(),
                reply.len(),
                out.as_mut_ptr(),
                out.len(),
            )
        };
        out.truncate(length);
        out
    }
}

#[cfg(linked)]
fn function(nand: bool) -> Option<TraceCase> {
    Some(if nand {
        port::nand_trace_case
    } else {
        port::nor_trace_case
    })
}

#[cfg(not(linked))]
fn function(_: bool) -> Option<TraceCase> {
    None
}

/// Ends the run when a case does not end.
fn watch() {
    loop {
        let before = BEGUN.load(Ordering::Relaxed);
        thread::sleep(LIMIT);
        if before > 0 && BEGUN.load(Ordering::Relaxed) == before {
            println!("no end of the case at place {}", before - 1);
            process::exit(1);
        }
    }
}
