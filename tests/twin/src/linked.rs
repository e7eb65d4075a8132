//! The one place that calls into the library, and its stand-in if there is none.

/// What one step told.
#[derive(Clone, Copy, Debug)]
pub struct Answer {
    pub act: u64,
    pub number: u64,
}

/// Whether a machine is linked in, and not its stand-in.
pub const IS_LINKED: bool = cfg!(machine_linked);

#[cfg(machine_linked)]
extern "C" {
    fn movkresan_step(
        memory: *mut u64,
        memory_len: usize,
        kind: u64,
        piece: *const u8,
        piece_len: usize,
        out: *mut u8,
        out_len: usize,
        number: *mut u64,
    ) -> u64;
}

#[cfg(machine_linked)]
pub fn step(memory: &mut [u64], kind: u64, piece: &[u8], out: &mut [u8]) -> Answer {
    let mut number = 0;
    // SAFETY: all three slices live through the call and come with their lengths, none
    // overlaps another, and the function keeps no pointer to them.
    let act = unsafe {
        movkresan_step(
            memory.as_mut_ptr(),
            memory.len(),
            kind,
            piece.as_ptr(),
            piece.len(),
            out.as_mut_ptr(),
            out.len(),
            &mut number,
        )
    };
    Answer { act, number }
}

/// Refuses everything as not known.
#[cfg(not(machine_linked))]
pub fn step(_memory: &mut [u64], _kind: u64, _piece: &[u8], _out: &mut [u8]) -> Answer {
    Answer { act: 3, number: 2 }
}
