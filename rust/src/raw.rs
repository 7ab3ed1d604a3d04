//! The library's C functions as declared here.
//!
//! No proof reaches these declarations: a wrong one compiles, links and misbehaves. A test holds
//! them to the library's source and to `include/spritbobbin.h`, signature by signature; others call
//! every function here and compare each answer with the worked cases, and the separate program's
//! comparison does so over many more inputs.

/// The bytes of the longest frame: a receiver's store has as many at every level.
pub const STORE: usize = 366;

/// The numbers of a verdict's state.
pub const VERDICT_STATE: usize = 683;

/// A record of a rack, laid out as the library lays it out: a receiver's state and its frame in hand.
#[repr(C)]
#[derive(Clone, Debug, PartialEq, Eq)]
pub struct Record {
    pub state: [u64; 9],
    pub frame: [u8; STORE],
}

impl Default for Record {
    fn default() -> Record {
        Record { state: [0; 9], frame: [0; STORE] }
    }
}

/// Building frames by one of the two engines.
pub type Multiplex = unsafe extern "C" fn(
    u64,
    u64,
    *mut u8,
    usize,
    *const u8,
    usize,
    *const u8,
    usize,
    &mut [u64; 5],
) -> u64;

/// Reading notes by one of the two engines.
pub type ReadNotes =
    unsafe extern "C" fn(u64, *const u8, usize, *mut u8, usize, &mut [u64; 5]) -> u64;

/// Extraction by one of the two engines.
pub type Extract = unsafe extern "C" fn(
    u64,
    u64,
    *const u8,
    usize,
    *const u8,
    usize,
    *mut u8,
    usize,
    &mut [u64; 5],
) -> u64;

extern "C" {
    /// Answer: four digit counts, named frame.
    pub fn spritbobbin_multiplex(
        level: u64,
        earlier: u64,
        line: *mut u8,
        line_bytes: usize,
        notes: *const u8,
        notes_bytes: usize,
        buffer: *const u8,
        buffer_bytes: usize,
        answer: &mut [u64; 5],
    ) -> u64;

    /// Answer: alignment digits that differ, dissenting digits of tributaries 1 to 4.
    pub fn spritbobbin_read_notes(
        level: u64,
        line: *const u8,
        line_bytes: usize,
        notes: *mut u8,
        notes_bytes: usize,
        answer: &mut [u64; 5],
    ) -> u64;

    /// Answer: four digit counts, named frame.
    pub fn spritbobbin_extract(
        level: u64,
        earlier: u64,
        line: *const u8,
        line_bytes: usize,
        notes: *const u8,
        notes_bytes: usize,
        buffer: *mut u8,
        buffer_bytes: usize,
        answer: &mut [u64; 5],
    ) -> u64;

    /// Answer: four digit counts, named frame.
    pub fn spritbobbin_plain_multiplex(
        level: u64,
        earlier: u64,
        line: *mut u8,
        line_bytes: usize,
        notes: *const u8,
        notes_bytes: usize,
        buffer: *const u8,
        buffer_bytes: usize,
        answer: &mut [u64; 5],
    ) -> u64;

    /// Answer: alignment digits that differ, dissenting digits of tributaries 1 to 4.
    pub fn spritbobbin_plain_read_notes(
        level: u64,
        line: *const u8,
        line_bytes: usize,
        notes: *mut u8,
        notes_bytes: usize,
        answer: &mut [u64; 5],
    ) -> u64;

    /// Answer: four digit counts, named frame.
    pub fn spritbobbin_plain_extract(
        level: u64,
        earlier: u64,
        line: *const u8,
        line_bytes: usize,
        notes: *const u8,
        notes_bytes: usize,
        buffer: *mut u8,
        buffer_bytes: usize,
        answer: &mut [u64; 5],
    ) -> u64;

    /// Answer: four digit counts, named frame.
    pub fn spritbobbin_late_multiplex(
        level: u64,
        earlier: u64,
        line: *mut u8,
        line_bytes: usize,
        notes: *const u8,
        notes_bytes: usize,
        buffer: *const u8,
        buffer_bytes: usize,
        answer: &mut [u64; 5],
    ) -> u64;

    /// Answer: digits taken.
    pub fn spritbobbin_swap(
        level: u64,
        earlier: u64,
        tributary: u64,
        line: *mut u8,
        line_bytes: usize,
        notes: *const u8,
        notes_bytes: usize,
        buffer: *const u8,
        buffer_bytes: usize,
        answer: &mut [u64; 1],
    ) -> u64;

    /// Answer: changed digits of the words, then control, then stuffing of tributaries 1 to 4, then
    /// national digits.
    pub fn spritbobbin_repair(
        level: u64,
        earlier: u64,
        national: u64,
        line: *mut u8,
        line_bytes: usize,
        answer: &mut [u64; 10],
    ) -> u64;

    /// Answer: of tributaries 1 to 4 each the readings that fit, wrong digits by its own frame, by the
    /// frame before and by the frame after, and changes of its decision.
    pub fn spritbobbin_judge(
        level: u64,
        earlier: u64,
        line: *const u8,
        line_bytes: usize,
        pattern: u64,
        buffer: *const u8,
        buffer_bytes: usize,
        answer: &mut [u64; 20],
    ) -> u64;

    pub fn spritbobbin_verdict_fresh(
        level: u64,
        earlier: u64,
        pattern: u64,
        state: &mut [u64; VERDICT_STATE],
    ) -> u64;

    /// Answer: of tributaries 1 to 4 each the changes of its decision, and then of its readings by its own
    /// frame, by the frame before and by the frame after each the digits read, those before the pattern was
    /// taken up, those right at first, wrong digits, slips, the shift and where it was entered.
    pub fn spritbobbin_verdict_feed(
        state: &mut [u64; VERDICT_STATE],
        line: *const u8,
        line_bytes: usize,
        next: u64,
        sent: *const u8,
        sent_bytes: usize,
        first: u64,
        answer: &mut [u64; 88],
    ) -> u64;

    /// State: level, window, digits seen, mode, place, the stretch's digits and zeros, 1 if the
    /// stretch before had few zeros, 1 if the alarm stands.
    pub fn spritbobbin_receiver_fresh(
        level: u64,
        state: &mut [u64; 9],
        frame: &mut [u8; STORE],
    ) -> u64;

    /// Answer: digits taken, 1 if a frame is ready, 1 if the alarm stands at the end, words tested.
    pub fn spritbobbin_receiver_feed(
        state: &mut [u64; 9],
        frame: &mut [u8; STORE],
        piece: *const u8,
        piece_bytes: usize,
        first: u64,
        count: u64,
        answer: &mut [u64; 4],
    ) -> u64;

    /// Answer: as of `spritbobbin_receiver_feed`.
    pub fn spritbobbin_rack_feed(
        records: *mut Record,
        number: usize,
        line: u64,
        piece: *const u8,
        piece_bytes: usize,
        first: u64,
        count: u64,
        answer: &mut [u64; 4],
    ) -> u64;

    pub fn spritbobbin_rack_reset(
        records: *mut Record,
        number: usize,
        line: u64,
        level: u64,
    ) -> u64;

    /// Answer: lines in mode aligned.
    pub fn spritbobbin_rack_aligned(
        records: *const Record,
        number: usize,
        answer: &mut [u64; 1],
    ) -> u64;

    /// 0 or 1, or 2 where the line has ended.
    pub fn spritbobbin_line_digit(line: *const u8, line_bytes: usize, place: u64) -> u64;

    pub fn spritbobbin_copy_digits(
        to: *mut u8,
        to_bytes: usize,
        at: u64,
        from: *const u8,
        from_bytes: usize,
        first: u64,
        count: u64,
    ) -> u64;

    /// State: window, digits seen, mode, place.
    pub fn spritbobbin_finder_fresh(state: &mut [u64; 4]) -> u64;

    /// Answer: digits taken, 1 if aligned at their end.
    pub fn spritbobbin_finder_feed(
        state: &mut [u64; 4],
        piece: *const u8,
        piece_bytes: usize,
        first: u64,
        count: u64,
        answer: &mut [u64; 2],
    ) -> u64;

    /// Answer: bytes of the file, named byte.
    pub fn spritbobbin_capture_write(
        level: u64,
        line: *const u8,
        line_bytes: usize,
        label: *const u8,
        label_bytes: usize,
        labelled: u64,
        file: *mut u8,
        file_bytes: usize,
        answer: &mut [u64; 2],
    ) -> u64;

    /// Answer: level, first byte of the line, its bytes, 1 if there is a label, first byte of the
    /// label, its bytes, named byte.
    pub fn spritbobbin_capture_read(
        file: *const u8,
        file_bytes: usize,
        answer: &mut [u64; 7],
    ) -> u64;

    /// Answer: file at fault, named byte, the fifteen sums, all differing digits, how many are
    /// listed. Places: frame and place of each.
    pub fn spritbobbin_compare(
        one: *const u8,
        one_bytes: usize,
        other: *const u8,
        other_bytes: usize,
        answer: &mut [u64; 19],
        places: &mut [u64; 128],
    ) -> u64;

    /// Answer: the fifteen sums, all differing digits, how many are listed. Places as above.
    pub fn spritbobbin_compare_lines(
        level: u64,
        one: *const u8,
        one_bytes: usize,
        other: *const u8,
        other_bytes: usize,
        answer: &mut [u64; 17],
        places: &mut [u64; 128],
    ) -> u64;

    /// Answer: the fifteen sums, all differing digits.
    pub fn spritbobbin_compare_stretch(
        level: u64,
        one: *const u8,
        one_bytes: usize,
        other: *const u8,
        other_bytes: usize,
        first: u64,
        count: u64,
        answer: &mut [u64; 16],
    ) -> u64;

    /// Answer: the number, and how many digits differ there.
    pub fn spritbobbin_begins(
        read: *const u8,
        read_bytes: usize,
        digits: u64,
        sent: *const u8,
        sent_bytes: usize,
        first: u64,
        count: u64,
        answer: &mut [u64; 2],
    ) -> u64;

    /// Answer: the frame, or 16.
    pub fn spritbobbin_multiframe_start(
        frames: *const u8,
        frames_bytes: usize,
        answer: &mut [u64; 1],
    ) -> u64;

    /// Answer: the kind's number, the tributary or 0.
    pub fn spritbobbin_place(level: u64, place: u64, answer: &mut [u64; 2]) -> u64;

    /// Answer: the kind's number; the digit fixed there, or the channel, or 0.
    pub fn spritbobbin_multiframe_place(place: u64, answer: &mut [u64; 2]) -> u64;

    /// MAJOR * 1000000 + MINOR * 1000 + PATCH.
    pub fn spritbobbin_version() -> u64;

    /// Answer: named channel.
    pub fn spritbobbin_multiframe_build(
        multiframe: *mut u8,
        multiframe_bytes: usize,
        channels: *const u8,
        channels_bytes: usize,
        signalling: *const u8,
        signalling_bytes: usize,
        spare: *const u8,
        spare_bytes: usize,
        answer: &mut [u64; 1],
    ) -> u64;

    pub fn spritbobbin_multiframe_apart(
        multiframe: *const u8,
        multiframe_bytes: usize,
        channels: *mut u8,
        channels_bytes: usize,
        signalling: *mut u8,
        signalling_bytes: usize,
        spare: *mut u8,
        spare_bytes: usize,
    ) -> u64;
}

/// A count that the library answers, as Rust counts. None is over eight times the bytes that were
/// lent, so none is cut.
pub fn count(number: u64) -> usize {
    number as usize
}
