//! The proved kernel's entry points.

use exos_kernel::Reply;

/// A function that replays a buffer of event records from no tables: RAM, output, records, and ten bytes for the last
/// answer (number, a and b in two bytes each, the bytes moved in four); it gives how many bytes of records it took.
type Entry =
    unsafe extern "C" fn(*mut u8, usize, *mut u8, usize, *const u8, usize, *mut u8, usize) -> usize;

extern "C" {
    fn exos_replay(
        ram: *mut u8,
        ram_length: usize,
        out: *mut u8,
        out_length: usize,
        log: *const u8,
        log_length: usize,
        reply: *mut u8,
        reply_length: usize,
    ) -> usize;
    fn exos_replay_tested(
        ram: *mut u8,
        ram_length: usize,
        out: *mut u8,
        out_length: usize,
        log: *const u8,
        log_length: usize,
        reply: *mut u8,
        reply_length: usize,
    ) -> usize;
}

/// Replays with tables that are good by theorem once they were tested.
pub fn held(ram: &mut [u8], out: &mut [u8], log: &[u8]) -> Reply {
    replay(exos_replay, ram, out, log)
}

/// Replays by public calls, each of which tests its tables.
pub fn tested(ram: &mut [u8], out: &mut [u8], log: &[u8]) -> Reply {
    replay(exos_replay_tested, ram, out, log)
}

fn replay(entry: Entry, ram: &mut [u8], out: &mut [u8], log: &[u8]) -> Reply {
    let mut reply = [0u8; 10];
    // SAFETY: each pointer comes with the length of the slice that it is from, and the slices do not overlap.
    let taken = unsafe {
        entry(
            ram.as_mut_ptr(),
            ram.len(),
            out.as_mut_ptr(),
            out.len(),
            log.as_ptr(),
            log.len(),
            reply.as_mut_ptr(),
            reply.len(),
        )
    };
    assert_eq!(taken, log.len(), "a whole log");
    let [number, _, a, _, b @ .., m0, m1, m2, m3] = reply;
    Reply {
        number,
        a,
        b: u16::from_le_bytes(b),
        moved: u32::from_le_bytes([m0, m1, m2, m3]),
    }
}
