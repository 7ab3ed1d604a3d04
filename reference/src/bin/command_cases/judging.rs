//! Cases of judge: what it must say of lines that a right, a late and an early multiplexer make, of
//! slipped, damaged and random ones, held against files and against patterns. The numbers are this
//! package's own verdict, and the sentences are made of them here.

use crate::case::{at, words, Case};
use crate::inputs::{damaged, known_bits, level, levels, room};
use crate::texts::{self, cannot, no_capture, no_level, no_room, no_vote, no_whole_frames};
use crate::worked::quarters;
use reference::digits::{pack, unpack};
use reference::frame::{self, Action, Place};
use reference::judging::{line_of, pattern_digits, votes, Reading, READINGS};
use reference::level::Row;
use reference::random::Random;
use reference::verdict::{feed, fresh, UNKNOWN};
use reference::write_capture;

pub fn cases() -> Vec<Case> {
    let mut cases = Vec::new();
    for row in levels() {
        cases.extend(of_level(row));
        cases.extend(long(row));
        cases.extend(found(row));
    }
    cases.extend(clocks());
    cases.extend(of_captures());
    cases.extend(patterns());
    cases.push(demo());
    cases.extend(checked());
    cases.extend(refused());
    cases
}

/// A recording, what was sent, and how the program is told of both.
pub struct Trial {
    pub row: &'static Row,
    pub level: String,
    pub earlier: u8,
    pub line: Vec<u8>,
    pub buffer: Vec<u8>,
    pub stages: u64,
}

/// Notes in which tributary 1's decision never changes, 2 and 3 change often, and 4 seldom.
fn notes(row: &Row, frames: usize, seed: u64) -> Vec<u8> {
    let mut random = Random::new(seed);
    let mut note = |k: usize| {
        let services = random.bytes(1)[0] & known_bits(row) & !0b1111;
        let seldom = if k % 50 < 25 { 0b1000 } else { 0 };
        services | 0b0001 | (random.bytes(1)[0] & 0b0110) | seldom
    };
    (0..frames).map(&mut note).collect()
}

/// Digits for every reading of so many frames: random ones, or a pattern's.
fn sent_digits(row: &Row, frames: usize, stages: u64, seed: u64) -> [Vec<u8>; 4] {
    let mut random = Random::new(seed);
    let count = frames * row.most_digits();
    [0, 1, 2, 3].map(|_| match stages {
        0 => random.digits(count),
        stages => pattern_digits(stages, &random.digits(23), count),
    })
}

/// One reading of one tributary, as the verdict tells it.
#[derive(Clone, Copy, Debug, Default, PartialEq, Eq)]
pub struct Read {
    pub digits: u64,
    pub unjudged: u64,
    pub wrong: u64,
    pub slips: u64,
    pub shift: i64,
    pub entered: u64,
}

impl Read {
    fn judged(&self) -> u64 {
        self.digits - self.unjudged
    }

    fn takes(&self) -> (u64, u64, u64) {
        (self.wrong, self.slips, self.unjudged)
    }
}

/// A slip of a reading: the first digit after it, its frame, how the shift changed, how many there are,
/// and whether it is a wrong vote.
#[derive(Clone, Copy, Debug)]
struct Slip {
    digit: u64,
    frame: usize,
    step: i64,
    slips: u64,
    vote: bool,
}

/// All four tributaries: changes of the decision, the readings, and the slips of each.
pub struct Told {
    changes: [u64; 4],
    reads: [[Read; 3]; 4],
    slips: [[Vec<Slip>; 3]; 4],
}

impl Told {
    /// What a reading of tributary j takes, as a page's table has it.
    pub fn takes(&self, j: usize, reading: usize) -> String {
        let read = self.reads[j][reading];
        let slips = match read.slips {
            1 => "1 slip".into(),
            slips => format!("{} slips", grouped(slips as usize)),
        };
        match read.wrong {
            _ if read.judged() == 0 && read.digits > 0 => "-".into(),
            0 => format!("0 wrong {slips}"),
            wrong => {
                format!("{} wrong {} {slips}", grouped(wrong as usize), ratio(wrong, read.judged()))
            }
        }
    }
}

/// The numbers of an answer.
fn reads(answer: &[u64]) -> [[Read; 3]; 4] {
    [0, 1, 2, 3].map(|j| {
        [0, 1, 2].map(|reading| {
            let of = &answer[22 * j + 1 + 7 * reading..22 * j + 8 + 7 * reading];
            Read {
                digits: of[0],
                unjudged: of[1],
                wrong: of[3],
                slips: of[4],
                shift: of[5] as i64,
                entered: of[6],
            }
        })
    })
}

impl Trial {
    /// The line of a multiplexer that goes by this reading.
    pub fn new(
        row: &'static Row,
        frames: usize,
        reading: Reading,
        stages: u64,
        seed: u64,
    ) -> Trial {
        let sent = sent_digits(row, frames, stages, seed);
        let line = line_of(row, 0, &notes(row, frames, seed), &sent, reading, 0b1010);
        let buffer = quarters(&sent, room(row, frames));
        Trial { row, level: row.level.to_string(), earlier: 0, line, buffer, stages }
    }

    pub fn after(mut self, earlier: u8) -> Trial {
        self.level = format!("{}:{:X}", self.row.level, earlier);
        self.earlier = earlier;
        self
    }

    /// The words of the call for what was sent.
    pub fn sent(&self) -> String {
        match self.stages {
            0 => "sent".into(),
            stages => format!("--pattern {stages}"),
        }
    }

    pub fn case(&self, name: &str) -> Case {
        let case = Case::new(&format!("judge-{}-{name}", self.level.replace(':', "-after-")));
        let case = case.file("line", &self.line);
        if self.stages == 0 {
            return case.file("sent", &self.buffer);
        }
        case
    }

    fn judged(&self, name: &str) -> Case {
        let command = words(&format!("judge {} line {}", at(&self.level), self.sent()));
        self.case(name).accepted(command, &self.text())
    }

    pub fn frames(&self) -> usize {
        self.line.len() / self.row.frame_bytes()
    }

    /// The verdict, frame by frame, by this package alone.
    pub fn told(&self) -> Told {
        let (_, mut state) = fresh(self.row.level, self.earlier.into(), self.stages);
        let votes = votes(self.row, &self.line);
        let mut slips: [[Vec<Slip>; 3]; 4] = Default::default();
        let mut starts: Vec<[[Read; 3]; 4]> = Vec::new();
        let mut answer = state.told();
        for (k, frame) in self.line.chunks(self.row.frame_bytes()).enumerate() {
            let next = votes.get(k + 1).map_or(UNKNOWN, |vote| u64::from(*vote));
            let fed = feed(&state, frame, next, &self.buffer_of(), 0);
            starts.push(reads(&answer));
            for j in 0..4 {
                for reading in 0..3 {
                    let before = reads(&answer)[j][reading];
                    let after = reads(&fed.answer)[j][reading];
                    if after.slips > before.slips {
                        slips[j][reading].push(self.slip(&starts, j, reading, before, after));
                    } else if after.slips < before.slips {
                        let of = &mut slips[j][reading];
                        while of.iter().map(|slip| slip.slips).sum::<u64>() > after.slips {
                            of.pop();
                        }
                    }
                }
            }
            state = fed.state;
            answer = fed.answer;
        }
        let changes = [0, 1, 2, 3].map(|j| answer[22 * j]);
        Told { changes, reads: reads(&answer), slips }
    }

    fn buffer_of(&self) -> Vec<u8> {
        if self.stages == 0 {
            return self.buffer.clone();
        }
        Vec::new()
    }

    /// Where the slip is that shows after this many frames.
    fn slip(
        &self,
        starts: &[[[Read; 3]; 4]],
        j: usize,
        reading: usize,
        before: Read,
        after: Read,
    ) -> Slip {
        let digit = after.entered;
        let frame = starts.iter().rposition(|all| all[j][reading].digits <= digit).unwrap_or(0);
        let inside = digit.saturating_sub(starts[frame][j][reading].digits) as i64;
        let near = self.justification(j).iter().any(|&at| inside >= at - 8 && inside <= at + 40);
        let acts = frame as i64 + [0, -1, 1][reading];
        let votes = if self.row.negative_places { vec![acts - 1, acts] } else { vec![acts] };
        let vote = near && votes.into_iter().any(|frame| self.is_split(frame, j));
        let (step, slips) = (after.shift - before.shift, after.slips - before.slips);
        Slip { digit, frame, step, slips, vote }
    }

    /// How many digits of tributary j a frame has before each of its justification places.
    fn justification(&self, j: usize) -> Vec<i64> {
        let (mut digits, mut places) = (0, Vec::new());
        for place in frame::layout(self.row) {
            match place {
                Place::Tributary(of) if of == j => digits += 1,
                Place::Justification(of) | Place::Negative(of) if of == j => places.push(digits),
                _ => {}
            }
        }
        places
    }

    /// Whether the control digits of tributary j do not all agree in this frame.
    fn is_split(&self, frame: i64, j: usize) -> bool {
        let bytes = self.row.frame_bytes();
        let frame = match usize::try_from(frame).ok().filter(|frame| *frame < self.frames()) {
            Some(frame) => &self.line[frame * bytes..(frame + 1) * bytes],
            None => return false,
        };
        let digits = unpack(frame, self.row.frame_digits);
        let places = frame::layout(self.row).into_iter().zip(digits);
        let group: Vec<u8> = places
            .filter(|(place, _)| *place == Place::Control(j))
            .map(|(_, digit)| digit)
            .collect();
        group.contains(&0) && group.contains(&1)
    }

    pub fn text(&self) -> String {
        let told = self.told();
        let against = match self.stages {
            0 => "sent".into(),
            stages => format!("the pattern of 2^{stages} - 1 digits, inverted"),
        };
        let (level, rate) = (self.row.level, line_rate(self.row));
        let mut text = format!(
            "Level {level}, {rate} kbit/s: {}, {}, held against {against}. \
             Clocks: taking the line at {rate} kbit/s.\n",
            so_many_frames(self.frames()),
            time(self.row, self.frames())
        );
        for j in 0..4 {
            text += &format!("tributary {}: {}\n", j + 1, self.sentence(&told, j));
            text += &format!("  clock: {}\n", self.clock(j));
        }
        text + &format!("{}\n", self.answer(&told))
    }

    pub fn verdict(&self, told: &Told, j: usize) -> Verdict {
        let of = &told.reads[j];
        let unjudged = of.iter().map(|read| read.unjudged).min().unwrap_or(0);
        let cost = |read: Read| read.wrong + 16 * read.slips + read.unjudged - unjudged;
        let costs = of.map(cost);
        let [own, before, after] = costs;
        let least = own.min(before).min(after);
        let judged = of.iter().map(Read::judged).max().unwrap_or(0);
        if self.frames() == 0 {
            return Verdict::Empty;
        }
        if judged == 0 {
            return Verdict::NotThere;
        }
        if self.stages != 0 && self.is_ones(j) {
            return Verdict::Ones;
        }
        if least > judged / 4 {
            return Verdict::Unlike;
        }
        if told.changes[j] == 0 && own - least <= 16 {
            return Verdict::Still;
        }
        match [own, before, after].map(|cost| cost == least) {
            [true, false, false] => Verdict::Right,
            [false, true, false] => Verdict::Late,
            [false, false, true] => Verdict::Early,
            [false, true, true] => Verdict::LateOrEarly,
            _ => Verdict::Alike,
        }
    }

    /// Whether every digit that tributary j has by any reading is a one.
    fn is_ones(&self, j: usize) -> bool {
        let places = frame::layout(self.row);
        self.line.chunks(self.row.frame_bytes()).all(|frame| {
            let digits = unpack(frame, self.row.frame_digits);
            let owned =
                places.iter().zip(digits).filter(|(place, _)| **place == Place::Tributary(j));
            owned.into_iter().all(|(_, digit)| digit == 1)
        })
    }

    /// The reading that the verdict goes by, by its number.
    fn best(&self, told: &Told, j: usize) -> usize {
        match self.verdict(told, j) {
            Verdict::Late | Verdict::LateOrEarly => 1,
            Verdict::Early => 2,
            Verdict::Unlike | Verdict::Still => {
                let cost = |read: &Read| read.wrong + 16 * read.slips + read.unjudged;
                let costs: Vec<u64> = told.reads[j].iter().map(cost).collect();
                costs.iter().position(|cost| Some(cost) == costs.iter().min()).unwrap_or(0)
            }
            _ => 0,
        }
    }

    /// The slips of the tributary's clock: all but the wrong votes.
    fn clock_slips(&self, told: &Told, j: usize) -> u64 {
        match self.verdict(told, j) {
            Verdict::Unlike | Verdict::NotThere | Verdict::Empty | Verdict::Ones => 0,
            _ => {
                let best = self.best(told, j);
                let votes = told.slips[j][best].iter().take(200).filter(|slip| slip.vote);
                told.reads[j][best].slips - votes.map(|slip| slip.slips).sum::<u64>()
            }
        }
    }

    pub fn head(&self, told: &Told, j: usize) -> String {
        let slipped = if self.clock_slips(told, j) > 0 { ", and the clock slipped" } else { "" };
        format!("{}{slipped}", self.verdict(told, j).head())
    }

    pub fn sentence(&self, told: &Told, j: usize) -> String {
        self.head(told, j) + &self.rest(told, j)
    }

    pub fn rest(&self, told: &Told, j: usize) -> String {
        let best = self.best(told, j);
        let read = told.reads[j][best];
        match self.verdict(told, j) {
            Verdict::Empty => return ".".into(),
            Verdict::NotThere => {
                return format!(
                    ": {}.",
                    self.absence(j, &grouped(told.reads[j][0].digits as usize))
                )
            }
            Verdict::Ones => return ", which meet every pattern: no signal, or an alarm.".into(),
            Verdict::Unlike => {
                return format!(
                    ": even read by the decision of {}, {} of {} digits are wrong ({}) and there are {} \
                     slips. Another file, another order of tributaries, or a recording that begins \
                     elsewhere in it.",
                    WHOSE[best],
                    grouped(read.wrong as usize),
                    grouped(read.judged() as usize),
                    ratio(read.wrong, read.judged()),
                    grouped(read.slips as usize)
                )
            }
            _ => {}
        }
        let others: Vec<usize> = (0..3).filter(|reading| *reading != best).collect();
        let alike = |reading: &usize| told.reads[j][*reading].takes() == read.takes();
        let same: Vec<&str> = others.iter().filter(|k| alike(k)).map(|k| WHOSE[*k]).collect();
        let same = match same.is_empty() {
            true => String::new(),
            false => format!(", and so by that of {}", same.join(" and of ")),
        };
        let other: Vec<String> =
            others.iter().filter(|k| !alike(k)).map(|k| would(*k, &told.reads[j][*k])).collect();
        let other =
            if other.is_empty() { String::new() } else { format!("; {}", other.join(", ")) };
        format!(
            ": read by the decision of {}, {}{same}{other}.{}",
            WHOSE[best],
            self.came(told, j, best),
            narrow(&told.reads[j])
        )
    }

    fn came(&self, told: &Told, j: usize, reading: usize) -> String {
        let read = told.reads[j][reading];
        let judged = grouped(read.judged() as usize);
        let digits = match read.unjudged {
            0 => format!("{judged} digits"),
            from => format!(
                "{judged} digits from digit {} on, where the pattern begins,",
                grouped(from as usize)
            ),
        };
        let meant = if self.stages == 0 { "those sent" } else { "the pattern's" };
        let wrong = match read.wrong {
            0 if read.slips == 0 => return format!("all {digits} are {meant}"),
            0 => format!("none of {digits} is wrong"),
            1 => format!("1 of {digits} is wrong ({})", ratio(1, read.judged())),
            wrong => format!(
                "{} of {digits} are wrong ({})",
                grouped(wrong as usize),
                ratio(wrong, read.judged())
            ),
        };
        let slipped = || self.slipped(&told.slips[j][reading], read.slips);
        match read.slips {
            0 => format!("{wrong} and there is no slip"),
            1 => format!("{wrong} and there is 1 slip, {}", slipped()),
            slips => {
                format!("{wrong} and there are {} slips, {}", grouped(slips as usize), slipped())
            }
        }
    }

    fn slipped(&self, slips: &[Slip], all: u64) -> String {
        // No more of them are looked at.
        let slips = &slips[..slips.len().min(200)];
        let counted: u64 = slips.iter().map(|slip| slip.slips).sum();
        let votes: u64 = slips.iter().filter(|slip| slip.vote).map(|slip| slip.slips).sum();
        let first = match slips.iter().find(|slip| !slip.vote).or_else(|| slips.first()) {
            Some(first) => self.place(first),
            None => return "not followed one by one".into(),
        };
        let of = if counted < all {
            format!("of the first {} ", grouped(counted as usize))
        } else {
            String::new()
        };
        match votes {
            0 if all == 1 => first,
            0 => format!("the first {first}"),
            1 if all == 1 => format!("a wrong vote: {first}"),
            votes if votes == all => format!("all of them wrong votes, the first {first}"),
            votes if votes == counted => format!("{of}all wrong votes, the first {first}"),
            1 => format!("{of}1 wrong vote, the first other {first}"),
            votes => {
                format!("{of}{} wrong votes, the first other {first}", grouped(votes as usize))
            }
        }
    }

    fn place(&self, slip: &Slip) -> String {
        let digits = match slip.step.unsigned_abs() {
            0 | 1 => "a digit".into(),
            digits => format!("{digits} digits"),
        };
        let way = if slip.step > 0 { "lost" } else { "doubled" };
        format!(
            "{digits} {way} at digit {}, frame {}, {}",
            grouped(slip.digit as usize),
            grouped(slip.frame),
            time(self.row, slip.frame)
        )
    }

    /// Why a pattern is not there.
    fn absence(&self, j: usize, digits: &str) -> String {
        let other = if self.stages == 15 { 23 } else { 15 };
        let mut begun = Trial { stages: other, ..self.clone_of() };
        begun.line.truncate(256 * self.row.frame_bytes());
        if begun.told().reads[j].iter().any(|read| read.judged() > 0) {
            return format!("it carries the pattern of 2^{other} - 1 digits, inverted");
        }
        let owned = |place: &Place| *place == Place::Tributary(j);
        let places = frame::layout(self.row);
        let zeros = begun.line.chunks(self.row.frame_bytes()).all(|frame| {
            let digits = unpack(frame, self.row.frame_digits);
            places.iter().zip(digits).all(|(place, digit)| !owned(place) || digit == 0)
        });
        if zeros {
            return format!("its {digits} digits are zeros: no signal");
        }
        format!(
            "in {digits} digits no {} in a row are the pattern's: another signal, or a line too worn \
             to take it up",
            64 + self.stages
        )
    }

    fn clone_of(&self) -> Trial {
        Trial {
            row: self.row,
            level: self.level.clone(),
            earlier: self.earlier,
            line: self.line.clone(),
            buffer: self.buffer.clone(),
            stages: self.stages,
        }
    }

    /// The last line: what all tributaries say.
    pub fn answer(&self, told: &Told) -> String {
        let parts =
            [self.answer_head(told), self.besides(told), self.wear(told), self.clocks_kept()];
        parts.iter().filter(|part| !part.is_empty()).cloned().collect::<Vec<_>>().join(" ")
    }

    pub fn answer_head(&self, told: &Told) -> String {
        let verdicts = [0, 1, 2, 3].map(|j| self.verdict(told, j));
        let has = |verdict: Verdict| verdicts.contains(&verdict);
        let slipped = self.numbers(|j| self.clock_slips(told, j) > 0);
        let index = has(Verdict::Late) || has(Verdict::Early) || has(Verdict::LateOrEarly);
        let head = match (has(Verdict::Late), has(Verdict::Early), has(Verdict::Right)) {
            (_, _, true) if index => "The tributaries do not agree: see each of them.",
            (true, true, _) => "The tributaries do not agree: see each of them.",
            (true, ..) => "The frame index: the multiplexer acts a frame late.",
            (_, true, _) => "The frame index: the multiplexer acts a frame early.",
            _ if index => "The frame index: the multiplexer acts a frame late or a frame early.",
            (_, _, true) if slipped.is_empty() => {
                "Neither: the multiplexer acts in its own frame, and no clock slipped."
            }
            (_, _, true) => {
                return format!(
                    "The clock: {} slipped. The multiplexer acts in its own frame.",
                    tributaries(&slipped)
                )
            }
            _ if has(Verdict::NotThere) || has(Verdict::Unlike) => {
                "Cannot be told: what was sent is not on this line."
            }
            _ if !slipped.is_empty() => {
                return format!("The clock: {} slipped.", tributaries(&slipped))
            }
            _ => "Cannot be told from this recording.",
        };
        head.into()
    }

    fn numbers(&self, which: impl Fn(usize) -> bool) -> Vec<String> {
        (0..4).filter(|j| which(*j)).map(|j| (j + 1).to_string()).collect()
    }

    /// Slips and absences that the head does not say.
    fn besides(&self, told: &Told) -> String {
        let head = self.answer_head(told);
        let slipped = self.numbers(|j| self.clock_slips(told, j) > 0);
        let absent =
            self.numbers(|j| matches!(self.verdict(told, j), Verdict::NotThere | Verdict::Unlike));
        let mut said = Vec::new();
        if !slipped.is_empty() && !head.starts_with("The clock") {
            said.push(format!("{} slipped besides.", tributaries(&slipped).replace('t', "T")));
        }
        if !absent.is_empty() && !head.ends_with("is not on this line.") {
            let not = if absent.len() == 1 { "does not" } else { "do not" };
            let who = tributaries(&absent);
            said.push(format!("T{} {not} carry what was sent.", &who[1..]));
        }
        said.join(" ").replace("TribuTary", "Tributary").replace("TribuTaries", "Tributaries")
    }

    fn wear(&self, told: &Told) -> String {
        let told_of = (0..4).filter(|j| {
            !matches!(self.verdict(told, *j), Verdict::NotThere | Verdict::Unlike | Verdict::Empty)
        });
        let reads: Vec<Read> = told_of.map(|j| told.reads[j][self.best(told, j)]).collect();
        let wrong: u64 = reads.iter().map(|read| read.wrong).sum();
        let judged: u64 = reads.iter().map(Read::judged).sum();
        match (wrong, judged) {
            (_, 0) => String::new(),
            (0, _) => format!("None of {} digits came wrong.", grouped(judged as usize)),
            _ => format!(
                "{} of {} digits came wrong, {}.",
                grouped(wrong as usize),
                grouped(judged as usize),
                one_in(wrong, judged)
            ),
        }
    }

    fn clocks_kept(&self) -> String {
        if self.frames() == 0 {
            return String::new();
        }
        let outside = self.numbers(|j| self.kept(j) == Some(false));
        match outside.len() {
            0 if (0..4).any(|j| self.kept(j).is_none()) => format!(
                "Whether every rate is within its tolerance cannot be told from {}.",
                so_many_frames(self.frames())
            ),
            0 => "Every tributary's rate is within its tolerance.".into(),
            1 => format!("The rate of tributary {} left its tolerance.", outside[0]),
            _ => format!("The rates of tributaries {} left their tolerance.", listed(&outside)),
        }
    }

    /// Whether tributary j's rate is within its tolerance, where it can be told.
    pub fn kept(&self, j: usize) -> Option<bool> {
        let carried = self.carried(j);
        let clock = Clock { row: self.row, carried: &carried };
        let frames = self.frames();
        let (off, most) = (clock.off(0, frames).abs(), 10 * tolerance(self.row) as i128);
        let one = clock.one_digit(frames);
        if !clock.outside().is_empty() || off > most + one {
            return Some(false);
        }
        Some(true).filter(|_| frames >= 512 || off + one <= most)
    }

    /// Whether it left its tolerance in a part of the recording.
    pub fn left_parts(&self, j: usize) -> bool {
        !Clock { row: self.row, carried: &self.carried(j) }.outside().is_empty()
    }

    /// The verdict as the table of a page has it.
    pub fn short(&self, told: &Told, j: usize) -> String {
        let slipped = self.clock_slips(told, j) > 0;
        let text = match self.verdict(told, j) {
            Verdict::Late => "index late",
            Verdict::Early => "index early",
            Verdict::LateOrEarly => "index late or early",
            Verdict::NotThere => "pattern not there",
            Verdict::Unlike => "not what was sent",
            _ if slipped => return "clock slipped".into(),
            Verdict::Right => "right",
            Verdict::Ones => "all ones",
            _ => "cannot be told",
        };
        format!("{text}{}", if slipped { ", clock slipped" } else { "" })
    }

    pub fn clock(&self, j: usize) -> String {
        let frames = self.frames();
        if frames == 0 {
            return "cannot be told, because there are no frames.".into();
        }
        let carried = self.carried(j);
        let clock = Clock { row: self.row, carried: &carried };
        if frames >= 512 {
            return clock.said();
        }
        let one = clock.one_digit(frames);
        let kept = match self.kept(j) {
            Some(true) => format!("within {} ppm", tolerance(self.row)),
            Some(false) => format!("outside {} ppm", tolerance(self.row)),
            None => format!("which does not tell whether it is within {} ppm", tolerance(self.row)),
        };
        format!(
            "{} from {} kbit/s, give or take {}.{} ppm, one digit in {}; {kept}.",
            clock.mean(),
            tributary_rate(self.row),
            grouped((one / 10) as usize),
            one % 10,
            so_many_frames(frames)
        )
    }

    /// The digits that each frame carries of tributary j.
    fn carried(&self, j: usize) -> Vec<usize> {
        let votes = votes(self.row, &self.line);
        let before = [&[self.earlier], votes.as_slice()].concat();
        let digits = |(before, own): (&u8, &u8)| {
            let usual = self.row.tributary_digits;
            match frame::action(self.row, *before, *own, j) {
                Action::Stuffed => usual - 1,
                Action::Plain => usual,
                Action::Negative => usual + 1,
            }
        };
        before.iter().zip(&votes).map(digits).collect()
    }
}

/// Whose decision a reading goes by.
const WHOSE: [&str; 3] = ["its own frame", "the frame before", "the frame after"];

/// What another reading would take.
fn would(reading: usize, read: &Read) -> String {
    if read.judged() == 0 && read.digits > 0 {
        return format!("by {} the pattern is not there", WHOSE[reading]);
    }
    let wrong = match read.wrong {
        0 => "no wrong digit".into(),
        wrong => format!(
            "{} wrong digit{} ({})",
            grouped(wrong as usize),
            if wrong == 1 { "" } else { "s" },
            ratio(wrong, read.judged())
        ),
    };
    let slips = match read.slips {
        0 => "no slip".into(),
        1 => "1 slip".into(),
        slips => format!("{} slips", grouped(slips as usize)),
    };
    format!("{} would need {wrong} and {slips}", WHOSE[reading])
}

/// A difference that one slip would make up for.
fn narrow(reads: &[Read; 3]) -> String {
    let unjudged = reads.iter().map(|read| read.unjudged).min().unwrap_or(0);
    let cost = |read: &Read| read.wrong + 16 * read.slips + read.unjudged - unjudged;
    let mut costs: Vec<u64> = reads.iter().map(cost).collect();
    costs.sort_unstable();
    match costs[1] - costs[0] {
        0 => String::new(),
        margin if margin <= 16 => {
            format!(" That is a narrow difference: {margin}, where one slip counts 16.")
        }
        _ => String::new(),
    }
}

/// What the readings of a tributary say.
#[derive(Clone, Copy, Debug, PartialEq, Eq)]
pub enum Verdict {
    Right,
    Late,
    Early,
    LateOrEarly,
    Still,
    Alike,
    Unlike,
    NotThere,
    Ones,
    Empty,
}

impl Verdict {
    fn head(self) -> &'static str {
        match self {
            Verdict::Right => "the multiplexer acts in its own frame",
            Verdict::Late => "the frame index is late",
            Verdict::Early => "the frame index is early",
            Verdict::LateOrEarly => {
                "the frame index is late or early, which its decisions do not tell"
            }
            Verdict::Still => "cannot be told, because its decision never changes",
            Verdict::Alike => {
                "cannot be told from these digits, because more than one reading needs as little"
            }
            Verdict::Unlike => "none of the three readings is what was sent",
            Verdict::NotThere => "the pattern is not there",
            Verdict::Ones => "cannot be told, because the tributary is all ones",
            Verdict::Empty => "cannot be told, because there are no frames",
        }
    }
}

fn tributaries(numbers: &[String]) -> String {
    let plural = if numbers.len() == 1 { "y" } else { "ies" };
    format!("tributar{plural} {}", listed(numbers))
}

fn listed(items: &[String]) -> String {
    match items {
        [one] => one.clone(),
        [first @ .., last] => format!("{} and {last}", first.join(", ")),
        [] => String::new(),
    }
}

fn ratio(part: u64, all: u64) -> String {
    format!("{:.2e}", part as f64 / all as f64)
}

fn one_in(part: u64, all: u64) -> String {
    match (all + part / 2) / part {
        0..=9 => format!("1 in {:.1}", all as f64 / part as f64),
        many => format!("1 in {}", grouped(many as usize)),
    }
}

/// The time of so many frames.
pub fn time(row: &Row, frames: usize) -> String {
    texts::time(line_rate(row) as u64, frames * row.frame_digits)
}

/// A tributary's clock, by the digits of each frame.
struct Clock<'a> {
    row: &'a Row,
    carried: &'a [usize],
}

impl Clock<'_> {
    /// Tenths of a part per million by which the digits of these frames are off, cut.
    fn off(&self, first: usize, end: usize) -> i128 {
        let digits: usize = self.carried[first..end].iter().sum();
        let line = (end - first) * self.row.frame_digits;
        let (came, due) = (
            digits as i128 * line_rate(self.row) as i128,
            line as i128 * tributary_rate(self.row) as i128,
        );
        (came - due) * 10_000_000 / due
    }

    fn one_digit(&self, frames: usize) -> i128 {
        let line = (frames * self.row.frame_digits) as i128;
        line_rate(self.row) as i128 * 10_000_000 / (line * tributary_rate(self.row) as i128)
    }

    /// The parts of the recording, each its first frame and the one after its last.
    fn parts(&self) -> Vec<(usize, usize)> {
        let frames = self.carried.len();
        let mut each = 512;
        while frames / each > 64 {
            each *= 2;
        }
        let count = frames / each;
        let ends = |i: usize| (i * each, if i + 1 == count { frames } else { (i + 1) * each });
        (0..count).map(ends).collect()
    }

    /// Those in which the rate left its tolerance.
    fn outside(&self) -> Vec<(usize, usize)> {
        let left = |&(first, end): &(usize, usize)| {
            let most = 10 * tolerance(self.row) as i128 + self.one_digit(end - first);
            self.off(first, end).abs() > most
        };
        self.parts().into_iter().filter(left).collect()
    }

    fn mean(&self) -> String {
        ppm(self.off(0, self.carried.len()))
    }

    fn said(&self) -> String {
        let parts = self.parts();
        let (first, last, tolerance) = (parts[0], parts[parts.len() - 1], tolerance(self.row));
        let part = |(first, end): (usize, usize)| ppm(self.off(first, end));
        let mut text = format!(
            "{} from {} kbit/s, {} in the first {} frames, {} in the last {} frames; ",
            self.mean(),
            tributary_rate(self.row),
            part(first),
            grouped(first.1),
            part(last),
            grouped(last.1 - last.0)
        );
        let outside = self.outside();
        text += &match outside.first() {
            None => format!("within {tolerance} ppm throughout."),
            Some((first, end)) => format!(
                "outside {tolerance} ppm in {} of {} parts, first in frames {} to {}.",
                outside.len(),
                parts.len(),
                grouped(*first),
                grouped(end - 1)
            ),
        };
        text
    }
}

fn ppm(tenths: i128) -> String {
    let sign = match tenths {
        0 => "",
        1.. => "+",
        _ => "-",
    };
    let size = tenths.abs();
    format!("{sign}{}.{} ppm", grouped((size / 10) as usize), size % 10)
}

pub fn so_many_frames(n: usize) -> String {
    let plural = if n == 1 { "" } else { "s" };
    format!("{} frame{plural}", grouped(n))
}

/// A number with its thousands apart.
pub fn grouped(n: usize) -> String {
    let figures = n.to_string();
    let mut text = String::new();
    for (k, figure) in figures.chars().enumerate() {
        if k > 0 && (figures.len() - k) % 3 == 0 {
            text.push(',');
        }
        text.push(figure);
    }
    text
}

pub fn line_rate(row: &Row) -> usize {
    match row.level {
        2 | 12 => 8448,
        3 => 34368,
        _ => 139_264,
    }
}

fn tributary_rate(row: &Row) -> usize {
    match row.level {
        2 | 12 => 2048,
        3 => 8448,
        _ => 34368,
    }
}

fn tolerance(row: &Row) -> usize {
    match row.level {
        2 | 12 => 50,
        3 => 30,
        _ => 20,
    }
}

fn of_level(row: &'static Row) -> Vec<Case> {
    let seed = 700 + row.level;
    let mut cases = Vec::new();
    let names = ["right", "late", "early"];
    for (name, reading) in names.into_iter().zip(READINGS) {
        for frames in [1, 64, 130] {
            let trial = Trial::new(row, frames, reading, 0, seed + frames as u64);
            cases.push(trial.judged(&format!("{name}-{frames}-frames")));
        }
        let stages = if row.level % 2 == 0 { 15 } else { 23 };
        let trial = Trial::new(row, 70, reading, stages, seed);
        cases.push(trial.judged(&format!("{name}-pattern-{stages}")));
        let mut worn = Trial::new(row, 100, reading, 0, seed + 20);
        worn.line = spoilt(&worn.line, 1000, seed);
        cases.push(worn.judged(&format!("{name}-1-in-1000-wrong")));
    }
    cases.push(Trial::new(row, 3, Reading::Before, 23, seed + 1).judged("late-pattern-23"));
    cases.push(Trial::new(row, 0, Reading::Own, 0, seed).judged("no-frames"));
    cases.push(Trial::new(row, 0, Reading::Own, 15, seed).judged("no-frames-pattern"));
    let mut worn = Trial::new(row, 66, Reading::Own, 0, seed + 2);
    worn.line = damaged(row, &worn.line, seed);
    cases.push(worn.judged("damaged"));
    let mut random = Trial::new(row, 66, Reading::Own, 0, seed + 3);
    random.line = Random::new(seed).bytes(random.line.len());
    cases.push(random.judged("random"));
    cases.push(slipped(row, seed).judged("slipped"));
    cases.push(wrong_vote(row, seed).judged("wrong-vote"));
    cases.push(alternating(row, Reading::Before, seed).judged("late-alternating"));
    cases.push(alternating(row, Reading::After, seed).judged("early-alternating"));
    let mut ones = Trial::new(row, 66, Reading::Own, 15, seed + 8);
    ones.line = alarmed(row, seed);
    cases.push(ones.judged("all-ones-pattern"));
    if row.negative_places {
        cases.push(Trial::new(row, 65, Reading::Own, 0, seed + 4).after(5).judged("own-vote"));
        cases.push(Trial::new(row, 1, Reading::Before, 15, seed + 5).after(15).judged("late-vote"));
    }
    cases
}

/// A line in which one digit in so many is wrong.
fn spoilt(line: &[u8], one_in: usize, seed: u64) -> Vec<u8> {
    let mut random = Random::new(seed);
    let mut digits = unpack(line, 8 * line.len());
    for digit in &mut digits {
        if random.index(one_in) == 0 {
            *digit ^= 1;
        }
    }
    pack(&digits)
}

/// Decisions that change in every frame: before and after are then alike.
fn alternating(row: &'static Row, reading: Reading, seed: u64) -> Trial {
    let mut trial = Trial::new(row, 66, Reading::Own, 0, seed + 7);
    let sent = sent_digits(row, 66, 0, seed + 7);
    let notes: Vec<u8> = (0..66).map(|f| if f % 2 == 0 { 0b0011 } else { 0b1100 }).collect();
    trial.line = line_of(row, 0, &notes, &sent, reading, notes[1]);
    trial
}

/// Tributaries of ones alone, which meet the recurrence of every pattern.
fn alarmed(row: &Row, seed: u64) -> Vec<u8> {
    let ones = [0, 1, 2, 3].map(|_| vec![1; 66 * row.most_digits()]);
    line_of(row, 0, &notes(row, 66, seed), &ones, Reading::Own, 0)
}

/// The clock of tributary 2 slipped: a digit less was sent than the file has.
fn slipped(row: &'static Row, seed: u64) -> Trial {
    let mut trial = Trial::new(row, 66, Reading::Own, 0, seed + 6);
    let quarter = trial.buffer.len() / 4;
    let mut digits = unpack(&trial.buffer[quarter..2 * quarter], 8 * quarter);
    let doubled = digits[3000];
    digits.insert(3000, doubled ^ 1);
    digits.pop();
    trial.buffer[quarter..2 * quarter].copy_from_slice(&pack(&digits));
    trial
}

/// Most control digits of tributary 3 are wrong in frame 20, but not all.
fn wrong_vote(row: &'static Row, seed: u64) -> Trial {
    let mut trial = Trial::new(row, 66, Reading::Own, 0, seed + 30);
    let places = frame::layout(row).into_iter().enumerate();
    let group: Vec<usize> =
        places.filter(|(_, place)| *place == Place::Control(2)).map(|(k, _)| k).collect();
    let mut digits = unpack(&trial.line, 8 * trial.line.len());
    for k in &group[1..] {
        digits[20 * row.frame_digits + k] ^= 1;
    }
    trial.line = pack(&digits);
    trial
}

/// Lines of 5,000 frames, too long for all lanes of this package: what is known of them is known by how
/// they were made. In each only ordinary digits of the tributaries are wrong, and far from each other.
fn long(row: &'static Row) -> Vec<Case> {
    let seed = 600 + row.level;
    let frames = 5000;
    let names = [("right", Reading::Own), ("late", Reading::Before), ("early", Reading::After)];
    let mut cases = Vec::new();
    for (name, reading) in names {
        let trial = Trial::new(row, frames, reading, 0, seed);
        let (line, wrong) = worn(row, &trial.line, seed);
        let head = match reading {
            Reading::Own => {
                "the multiplexer acts in its own frame: read by the decision of its own frame"
            }
            Reading::Before => "the frame index is late: read by the decision of the frame before",
            Reading::After => "the frame index is early: read by the decision of the frame after",
        };
        let said = |j: usize| {
            let wrong = grouped(wrong[j]);
            format!("^tributary {}: {head}, {wrong} of [0-9,]+ digits are wrong .* no slip;", j + 1)
        };
        let trial = Trial { line, ..trial };
        let command = words(&format!("judge -l {} line sent", row.level));
        let all = grouped(wrong.iter().sum());
        let last =
            format!("^(The frame index|Neither): .* {all} of [0-9,]+ digits came wrong, 1 in ");
        let case = trial.case(&format!("{name}-5000-frames"));
        cases.push(case.like(command, 0, &[said(1), said(2), said(3)], &last));
    }
    cases.push(long_slipped(row, seed));
    cases
}

/// The line with a wrong digit of tributaries 2, 3 and 4 in about every third frame, and how many each has.
fn worn(row: &Row, line: &[u8], seed: u64) -> (Vec<u8>, [usize; 4]) {
    let mut random = Random::new(seed);
    let mut digits = unpack(line, 8 * line.len());
    let mut wrong = [0; 4];
    let layout = frame::layout(row);
    for frame in digits.chunks_mut(row.frame_digits) {
        for j in 1..4 {
            // Of the first set, where no decision moves anything.
            let place = 40 + 4 * random.index(20) + j;
            if random.index(3) == 0 && layout[place] == Place::Tributary(j) {
                frame[place] ^= 1;
                wrong[j] += 1;
            }
        }
    }
    (pack(&digits), wrong)
}

/// A late multiplexer, and a tributary that lost a digit before it after half of the recording.
fn long_slipped(row: &'static Row, seed: u64) -> Case {
    let mut trial = Trial::new(row, 5000, Reading::Before, 0, seed + 1);
    let quarter = trial.buffer.len() / 4;
    let at = 2500 * row.tributary_digits + 7;
    let mut digits = unpack(&trial.buffer[3 * quarter..], 8 * quarter);
    let digit = digits[at];
    digits.insert(at, digit ^ 1);
    digits.pop();
    trial.buffer[3 * quarter..].copy_from_slice(&pack(&digits));
    let said = format!(
        "^tributary 4: the frame index is late, and the clock slipped: .* none of [0-9,]+ digits is wrong \
         and there is 1 slip, a digit lost at digit {}, frame 250[0-9],",
        grouped(at)
    )
    .replace("frame 250", "frame 2,50");
    let command = words(&format!("judge -l {} line sent", row.level));
    let last =
        "^The frame index: the multiplexer acts a frame late\\. Tributary 4 slipped besides\\. ";
    trial.case("slipped-5000-frames").like(command, 0, &[said], last)
}

/// Recordings begun anywhere: noise before them, the first frame cut, and where there are two stretches, a
/// gap. Where each begins in what was sent is found.
fn found(row: &'static Row) -> Vec<Case> {
    let seed = 500 + row.level;
    let trial = Trial::new(row, 60, Reading::Before, 0, seed);
    let bytes = row.frame_bytes();
    let noise = Random::new(seed + 1).bytes(bytes / 2);
    let cut = 33;
    let mut recording = [&noise[..], &trial.line[cut..]].concat();
    let command = words(&format!("judge -l {} recording sent --find", row.level));
    let case = |name: &str, recording: &[u8]| {
        Case::new(&format!("judge-{}-{name}", row.level))
            .file("recording", recording)
            .file("sent", &trial.buffer)
    };
    let late = "The frame index: the multiplexer acts a frame late\\.";
    let stretch =
        "^stretch of [0-9]+ frames from digit [0-9,]+, .* where 0 of [0-9,]+ differ \\(0\\): ";
    let one = case("found", &recording).like(
        command.clone(),
        0,
        &[stretch.into(), "^tributary 2: the frame index is late: .*, all ".into()],
        &format!("^{late} None of "),
    );
    // Ones in place of six frames: their words are wrong, and alignment is lost.
    let gap = noise.len() + 30 * bytes - cut;
    recording[gap..gap + 6 * bytes].fill(0xFF);
    let two = case("found-with-a-gap", &recording).like(
        command,
        0,
        &["^gap of [0-9,]+ digits$".into(), stretch.into()],
        &format!("^{late} "),
    );
    let none = Case::new(&format!("judge-{}-none-found", row.level))
        .file("recording", &vec![0; 10 * bytes])
        .file("sent", &trial.buffer)
        .like(
            words(&format!("judge -l {} recording sent --find", row.level)),
            0,
            &["^no frame found in [0-9,]+ digits\\.$".into()],
            "^Cannot be told from this recording\\.",
        );
    vec![one, two, none]
}

/// Patterns that are not those asked for, and why, where it can be told.
fn patterns() -> Vec<Case> {
    let mut cases = Vec::new();
    for (number, stages, other) in [(2, 15, 23), (4, 23, 15), (12, 15, 23)] {
        let mut trial = Trial::new(level(number), 20, Reading::Own, stages, 840 + number);
        trial.stages = other;
        cases.push(trial.judged(&format!("pattern-{stages}-for-{other}")));
        let zeros = [0, 1, 2, 3].map(|_| vec![0; 20 * trial.row.most_digits()]);
        trial.line = line_of(trial.row, 0, &notes(trial.row, 20, 9), &zeros, Reading::Own, 0);
        cases.push(trial.judged(&format!("zeros-for-pattern-{other}")));
        let noise = sent_digits(trial.row, 20, 0, 77);
        trial.line = line_of(trial.row, 0, &notes(trial.row, 20, 9), &noise, Reading::Own, 0);
        cases.push(trial.judged(&format!("noise-for-pattern-{other}")));
    }
    cases
}

/// `--check`: status 1 where the index is off, a clock slipped or nothing was found; else 0.
fn checked() -> Vec<Case> {
    let row = level(2);
    let command = || words("judge -l 2 line sent --check");
    let right = Trial::new(row, 66, Reading::Own, 0, 850);
    let late = Trial::new(row, 66, Reading::Before, 0, 851);
    let slipped = slipped(row, 852);
    let voted = wrong_vote(row, 853);
    vec![
        right.case("checked-right").accepted(command(), &right.text()),
        voted.case("checked-wrong-vote").accepted(command(), &voted.text()),
        late.case("checked-late").checked(command(), &late.text()),
        slipped.case("checked-slipped").checked(command(), &slipped.text()),
    ]
}

/// Recordings long enough for their clocks, with tributaries that are slow, fast and drift.
fn clocks() -> Vec<Case> {
    let lengths = [(2, 511), (2, 512), (2, 1500), (3, 1100), (4, 600), (12, 700), (14, 600)];
    let case =
        |(number, frames)| clocked(number, frames).judged(&format!("clocks-{frames}-frames"));
    lengths.into_iter().map(case).collect()
}

pub fn clocked(number: u64, frames: usize) -> Trial {
    let row = level(number);
    let mut trial = Trial::new(row, 1, Reading::Own, 15, 800);
    let sent = sent_digits(row, frames, 15, 801);
    trial.line = line_of(row, 0, &timed_notes(row, frames), &sent, Reading::Own, 0);
    trial
}

/// Tributary 1 at its nominal rate, 2 slow, 3 fast, 4 nominal and then slow.
fn timed_notes(row: &Row, frames: usize) -> Vec<u8> {
    // How often in a thousand frames a tributary is stuffed at its nominal rate.
    let usual = match row.level {
        2 => 424,
        3 => 36,
        4 => 500,
        _ => 500,
    };
    let bit = |f: usize, rate: usize| (f + 1) * rate / 1000 - f * rate / 1000;
    let note = |f: usize| {
        let last = if f > frames / 2 { usual + 100 } else { usual };
        let rates = [usual, usual + 60, usual - 30, last];
        (0..4).map(|j| (bit(f, rates[j]) as u8) << j).sum()
    };
    (0..frames).map(note).collect()
}

/// The verdict with which demo ends, on the line of its late multiplexer.
fn demo() -> Case {
    let row = level(2);
    let numbers = std::iter::successors(Some(1), |x| Some(x % 65_537 * 75 + 74));
    let buffer: Vec<u8> = numbers.skip(1).take(824).map(|x: u32| (x / 16) as u8).collect();
    let sent = [0, 1, 2, 3].map(|j| unpack(&buffer[206 * j..206 * (j + 1)], 8 * 206));
    let notes = [0x25, 0x23, 0x2D, 0x2B].repeat(2);
    let line = line_of(row, 0, &notes, &sent, Reading::Before, 11);
    let trial = Trial { row, level: "2".into(), earlier: 0, line, buffer, stages: 0 };
    let told = trial.told();
    let said = |j: usize| {
        let sentence = trial.sentence(&told, j);
        let sentence = sentence.replace('.', "\\.").replace('(', "\\(").replace(')', "\\)");
        format!("^tributary {}: {sentence}$", j + 1)
    };
    let said = [0, 1, 2, 3].map(said);
    Case::new("demo-ends-with-the-verdict").like(words("demo"), 0, &said, &said[3])
}

/// The capture of a recording's line.
pub fn captured(trial: &Trial) -> Vec<u8> {
    let mut file = vec![0; 65_600];
    let written = write_capture(trial.row.level, &trial.line, Some(b"site 7"), &mut file);
    file.truncate(written.bytes as usize);
    file
}

/// Captures, with a vote before them and without one.
fn of_captures() -> Vec<Case> {
    let mut cases = Vec::new();
    for (number, stages, vote, earlier) in [
        (2, 0, "", 0),
        (4, 15, "", 0),
        (12, 23, "", 0),
        (12, 0, ":5", 5),
        (12, 15, ":F", 15),
        (14, 0, ":a", 10),
        // Levels 2 to 4 do not look at the vote.
        (3, 0, ":ff", 0),
    ] {
        for (name, reading) in [("right", Reading::Own), ("late", Reading::Before)] {
            let mut trial = Trial::new(level(number), 20, reading, stages, 820 + number);
            trial.earlier = earlier;
            let after = vote.replace(':', "-after-");
            let mut case = Case::new(&format!("judge-capture-{number}{after}-{name}"))
                .file("capture", &captured(&trial));
            if stages == 0 {
                case = case.file("sent", &trial.buffer);
            }
            let command = words(&format!("judge {} capture {}", at(vote), trial.sent()));
            let text = format!("label: \"site 7\"\n{}", trial.text());
            cases.push(case.accepted(command, &text));
        }
    }
    cases.extend(refused_captures());
    cases
}

/// A pattern that is none comes first, then what the reader refuses, then the vote, then what was
/// sent.
fn refused_captures() -> Vec<Case> {
    let none = [1, 2, 3];
    let good = captured(&Trial::new(level(14), 2, Reading::Own, 0, 830));
    let given = |name: &str, file: &[u8]| {
        Case::new(&format!("judge-capture-{name}")).file("capture", file).file("sent", &[0; 3])
    };
    let judge = |rest: &str| words(&format!("judge {rest}"));
    vec![
        given("none", &none).fails(judge("capture sent"), &no_capture("capture", &none)),
        given("none-and-no-vote", &none)
            .fails(judge("--earlier 10 capture sent"), &no_capture("capture", &none)),
        given("none-and-no-pattern", &none)
            .fails(judge("--earlier 5 capture --pattern 7"), &no_pattern("7")),
        given("no-vote", &good).fails(judge("--earlier 16 capture sent"), &no_vote("16")),
        given("no-vote-nothing-sent", &good)
            .fails(judge("--earlier ff capture none"), &no_vote("ff")),
        given("after-a-vote-no-room", &good)
            .fails(judge("--earlier 5 capture sent"), &no_room(level(14), "sent", 3, 2)),
        given("found", &good).fails(
            judge("capture sent --find"),
            "wrong call: --find wants --level: a recording does not say its own.",
        ),
    ]
}

fn no_pattern(word: &str) -> String {
    format!("refused 13: no pattern {word}; --pattern is 15 or 23.")
}

fn refused() -> Vec<Case> {
    let row = level(2);
    let given = |name: &str, line: usize, sent: usize| {
        Case::new(name).file("line", &vec![0; line]).file("sent", &vec![0; sent])
    };
    let judge = |rest: &str| words(&format!("judge {rest}"));
    vec![
        given("judge-no-level", 106, 104).fails(judge("-l 5 line sent"), &no_level("5")),
        given("judge-no-level-no-pattern", 1, 0)
            .fails(judge("-l 5 line --pattern 9"), &no_level("5")),
        given("judge-no-pattern", 1, 0).fails(judge("-l 2 line --pattern 9"), &no_pattern("9")),
        given("judge-no-pattern-no-vote", 1, 0)
            .fails(judge("-l 12 --earlier 16 line --pattern 0"), &no_pattern("0")),
        given("judge-no-vote", 1, 0).fails(judge("-l 12 --earlier 16 line sent"), &no_vote("16")),
        given("judge-no-whole-frames", 107, 3)
            .fails(judge("-l 2 line sent"), &no_whole_frames(row, "line", 107)),
        given("judge-no-room", 212, 4 * 51)
            .fails(judge("-l 2 line sent"), &no_room(row, "sent", 4 * 51, 2)),
        given("judge-no-quarters", 106, 105)
            .fails(judge("-l 2 line sent"), &no_room(row, "sent", 105, 1)),
        given("judge-find-no-quarters", 106, 105).fails(
            judge("-l 2 line sent --find"),
            "refused 4: sent has 105 bytes, no four equal quarters.",
        ),
        Case::new("judge-no-line").fails(judge("-l 2 line sent"), &cannot("line", "opened")),
        Case::new("judge-no-sent")
            .file("line", &[0; 106])
            .fails(judge("-l 2 line sent"), &cannot("sent", "opened")),
        Case::new("judge-line-is-a-folder")
            .folder("line")
            .fails(judge("-l 2 line --pattern 15"), &cannot("line", "read")),
    ]
}
