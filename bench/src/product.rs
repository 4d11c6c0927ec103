//! The station, through the C interface of its static library.

/// What the station's normalise answers, as it answers it.
#[derive(Clone, Copy, PartialEq, Eq, Debug)]
pub struct Answer {
    pub written: u64,
    pub refused: u64,
    pub outcome: u8,
}

mod c {
    unsafe extern "C" {
        /// `answer[0]`: bytes written; `answer[1]`: commands passed over. Answers 0, 5 or 6.
        pub fn ticket_normalise(
            stream: *const u8,
            stream_len: usize,
            out: *mut u8,
            out_len: usize,
            answer: *mut u64,
            answer_len: usize,
        ) -> u8;

        /// `counts`: the plate's seven counts. Answers the number of commands passed over.
        pub fn ticket_feed_plate(
            stream: *const u8,
            stream_len: usize,
            counts: *mut u32,
            counts_len: usize,
        ) -> u64;
    }
}

/// Writes the normal text of `stream` at the front of `out`.
pub fn normalise(stream: &[u8], out: &mut [u8]) -> Answer {
    let mut answer = [u64::MAX; 2];
    // SAFETY: each pointer comes with the length of the slice that it points to; the slices do not
    // overlap, the written ones are borrowed for writing, and the station keeps none of them.
    let outcome = unsafe {
        c::ticket_normalise(
            stream.as_ptr(),
            stream.len(),
            out.as_mut_ptr(),
            out.len(),
            answer.as_mut_ptr(),
            answer.len(),
        )
    };
    Answer { written: answer[0], refused: answer[1], outcome }
}

/// Feeds a whole stream to a new plate that is filled up at first and whenever it runs short.
/// Answers its counts and the number of commands passed over.
pub fn feed_plate(stream: &[u8]) -> ([u32; 7], u64) {
    let mut counts = [u32::MAX; 7];
    // SAFETY: as above.
    let refused = unsafe {
        c::ticket_feed_plate(stream.as_ptr(), stream.len(), counts.as_mut_ptr(), counts.len())
    };
    (counts, refused)
}
