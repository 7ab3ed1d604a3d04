//! The table of levels.

/// The most frames that one line may hold.
pub const MOST_FRAMES: u64 = 64;
/// The most bytes of a slice or of a line that the receiver and the reader take.
pub const MOST_BYTES: u64 = 65_536;
/// The bytes of the receiver's frame store, whatever the level.
pub const STORE_BYTES: usize = 366;

/// One row of the table: what differs from level to level.
#[derive(Debug)]
pub struct Row {
    pub level: u64,
    /// Digits of the line in a second, in thousands.
    pub rate: u64,
    pub frame_digits: usize,
    pub sets: usize,
    pub set_digits: usize,
    pub word: &'static str,
    /// The service digits after the word that have a bit in the note.
    pub remote_alarm_digits: usize,
    pub national_digits: usize,
    /// Service digits that are sent as 1 and have no bit: after the word, and after the control
    /// digits of each set between the first and the last.
    pub first_service_digits: usize,
    pub middle_service_digits: usize,
    pub group_digits: usize,
    /// Whether the last set has negative places ahead of the positive ones. A frame then acts on
    /// its own vote and the preceding frame's, else on its own alone.
    pub negative_places: bool,
    /// Digits per tributary in a frame, none stuffed and none at a negative place.
    pub tributary_digits: usize,
    /// The most zeros that are few in as many digits as a frame has.
    pub few_zeros: usize,
}

/// The numbers of all levels.
pub const LEVELS: [u64; 5] = [2, 3, 4, 12, 14];

const ROWS: [Row; 5] = [
    Row {
        level: 2,
        rate: 8448,
        frame_digits: 848,
        sets: 4,
        set_digits: 212,
        word: "1111010000",
        remote_alarm_digits: 1,
        national_digits: 1,
        first_service_digits: 0,
        middle_service_digits: 0,
        group_digits: 3,
        negative_places: false,
        tributary_digits: 206,
        few_zeros: 4,
    },
    Row {
        level: 3,
        rate: 34_368,
        frame_digits: 1536,
        sets: 4,
        set_digits: 384,
        word: "1111010000",
        remote_alarm_digits: 1,
        national_digits: 1,
        first_service_digits: 0,
        middle_service_digits: 0,
        group_digits: 3,
        negative_places: false,
        tributary_digits: 378,
        few_zeros: 4,
    },
    Row {
        level: 4,
        rate: 139_264,
        frame_digits: 2928,
        sets: 6,
        set_digits: 488,
        word: "111110100000",
        remote_alarm_digits: 1,
        national_digits: 3,
        first_service_digits: 0,
        middle_service_digits: 0,
        group_digits: 5,
        negative_places: false,
        tributary_digits: 723,
        few_zeros: 5,
    },
    // Section 4 of document 000: groups of 264, service digits at 5 to 8 of groups II and III.
    Row {
        level: 12,
        rate: 8448,
        frame_digits: 1056,
        sets: 4,
        set_digits: 264,
        word: "11100110",
        remote_alarm_digits: 0,
        national_digits: 0,
        first_service_digits: 0,
        middle_service_digits: 4,
        group_digits: 3,
        negative_places: true,
        tributary_digits: 256,
        few_zeros: 2,
    },
    // Section 6: groups of 544, service digits at 11 and 12 of group I.
    Row {
        level: 14,
        rate: 139_264,
        frame_digits: 2176,
        sets: 4,
        set_digits: 544,
        word: "1111010000",
        remote_alarm_digits: 0,
        national_digits: 0,
        first_service_digits: 2,
        middle_service_digits: 0,
        group_digits: 3,
        negative_places: true,
        tributary_digits: 537,
        few_zeros: 4,
    },
];

/// The row of a level, or none if there is no such level.
pub fn row(level: u64) -> Option<&'static Row> {
    ROWS.iter().find(|row| row.level == level)
}

impl Row {
    /// The alignment word as a list of digits.
    pub fn word_digits(&self) -> Vec<u8> {
        self.word.bytes().map(|sign| sign - b'0').collect()
    }

    /// L: how many digits the alignment word has.
    pub fn word_length(&self) -> usize {
        self.word.len()
    }

    pub fn frame_bytes(&self) -> usize {
        self.frame_digits / 8
    }

    /// The most digits of a tributary in a frame, for which room is asked whatever the votes.
    pub fn most_digits(&self) -> usize {
        self.tributary_digits + usize::from(self.negative_places)
    }

    /// How many bits of a note the level knows, the lowest first: four votes, then service digits.
    pub fn note_bits(&self) -> usize {
        4 + self.remote_alarm_digits + self.national_digits
    }

    /// The bits of a note that are national digits: bit 5, at level 4 bits 5 to 7. None where the
    /// level has no national digits.
    pub fn national_bits(&self) -> u8 {
        let ones = (1_u32 << self.national_digits) - 1;
        (ones << 5) as u8
    }
}
