//! `build` and `apart`: files of whole multiframes of 2048 kbit/s, any number of them, a multiframe a call. To a multiframe of 512 bytes a
//! file of channels has 480 bytes, a file of signalling 15, and a file of spare digits 9.

use serde::Serialize;
use spritbobbin::{digits_in, whole_bytes, Finder, Multiframe, Refusal, Turn, MULTIFRAME_BYTES};

use crate::cli::{Apart, Build};
use crate::commands::hunt::{multiframe_at, start, Start, WORD};
use crate::failure::Failure;
use crate::files::{self, Input, Output, CHUNK};
use crate::progress::Progress;
use crate::report::{shown, written, Report, Saying};
use crate::times::time;

const CHANNELS: usize = 480;
const SIGNALLING: usize = 15;
const SPARE: usize = 9;

#[derive(Serialize)]
struct Done {
    multiframes: u64,
    #[serde(skip_serializing_if = "Option::is_none")]
    stretches: Option<Vec<Stretch>>,
    written: Vec<String>,
    #[serde(skip)]
    what: &'static str,
}

/// Multiframes of a recording that follow one another.
#[derive(Clone, Copy, Debug, Serialize)]
struct Stretch {
    /// The digit at which the first begins.
    digit: u64,
    multiframes: u64,
}

impl Report for Done {
    fn text(&self) -> String {
        let Done { multiframes, what, .. } = self;
        let found = |one: &Stretch| {
            let Stretch { digit, multiframes } = one;
            format!(
                "{multiframes} multiframes from digit {digit} of the recording on ({})\n",
                time(2048, *digit)
            )
        };
        let stretches: String = self.stretches.iter().flatten().map(found).collect();
        format!("{stretches}{multiframes} multiframes {what}.\n") + &written(&self.written)
    }
}

pub fn build(call: Build, mut saying: Saying) -> Result<u8, Failure> {
    let inputs = [
        ("CHANNELS", call.channels.as_path()),
        ("SIGNALLING", &call.signalling),
        ("SPARE", &call.spare),
    ];
    files::distinct(&inputs, &[("MULTIFRAMES", &call.multiframes)])?;
    saying.aside = files::any_standard(&[&call.multiframes]);
    let channels = Input::open(&call.channels)?;
    let signalling = Input::open(&call.signalling)?;
    let spare = Input::open(&call.spare)?;
    whole(&channels, CHANNELS)?;
    let count = channels.bytes() / CHANNELS as u64;
    fits(&signalling, SIGNALLING, count)?;
    fits(&spare, SPARE, count)?;
    let mut output = Output::create(&call.multiframes)?;
    let progress = Progress::of(Some(channels.bytes()), saying);
    for number in 0..count {
        let mut one = Multiframe { channels: [[0; 16]; 30], signalling: [0; 15], spare: [0; 9] };
        let mut bytes = [0; CHANNELS];
        channels.read_at(number.saturating_mul(CHANNELS as u64), &mut bytes)?;
        for (channel, bytes) in one.channels.iter_mut().zip(bytes.chunks(16)) {
            channel.copy_from_slice(bytes);
        }
        signalling.read_at(number.saturating_mul(SIGNALLING as u64), &mut one.signalling)?;
        spare.read_at(number.saturating_mul(SPARE as u64), &mut one.spare)?;
        let built = one.build().map_err(|refusal| silent(refusal, &signalling, number))?;
        output.append(&built)?;
        progress.at(number.saturating_mul(CHANNELS as u64));
    }
    let written = files::keep(vec![output])?;
    saying.say(&Done { multiframes: count, stretches: None, written, what: "built" })?;
    Ok(0)
}

pub fn apart(call: Apart, mut saying: Saying) -> Result<u8, Failure> {
    let outputs = [
        ("CHANNELS", call.channels.as_path()),
        ("SIGNALLING", &call.signalling),
        ("SPARE", &call.spare),
    ];
    files::distinct(&[("MULTIFRAMES", &call.multiframes)], &outputs)?;
    saying.aside = files::any_standard(&[&call.channels, &call.signalling, &call.spare]);
    let multiframes = Input::open(&call.multiframes)?;
    let (stretches, count) = if call.find {
        let stretches = found(&multiframes)?;
        let count = stretches.iter().map(|one| one.multiframes).sum();
        (stretches, count)
    } else {
        whole(&multiframes, MULTIFRAME_BYTES)?;
        let count = multiframes.bytes() / MULTIFRAME_BYTES as u64;
        (vec![Stretch { digit: 0, multiframes: count }], count)
    };
    let mut channels = Output::create(&call.channels)?;
    let mut signalling = Output::create(&call.signalling)?;
    let mut spare = Output::create(&call.spare)?;
    let progress = Progress::of(Some(multiframes.bytes()), saying);
    for stretch in &stretches {
        for number in 0..stretch.multiframes {
            let digit = stretch.digit.saturating_add(number.saturating_mul(MULTIFRAME));
            let Some(bytes) = multiframe_at(&multiframes, digit)? else { break };
            let one = Multiframe::apart(&bytes)?;
            channels.append(&one.channels.concat())?;
            signalling.append(&one.signalling)?;
            spare.append(&one.spare)?;
            progress.at(whole_bytes(digit));
        }
    }
    let written = files::keep(vec![channels, signalling, spare])?;
    let stretches = call.find.then_some(stretches);
    saying.say(&Done { multiframes: count, stretches, written, what: "taken apart" })?;
    Ok(0)
}

/// A multiframe's digits.
const MULTIFRAME: u64 = 4096;

/// Where multiframes begin in a recording begun anywhere: in each stretch in which frames are found, from the first start on.
fn found(recording: &Input) -> Result<Vec<Stretch>, Failure> {
    let (mut finder, mut chunk, mut at) = (Finder::new(), vec![0; CHUNK], 0_u64);
    let (mut aligned, mut begun): (Vec<(u64, u64)>, Option<u64>) = (Vec::new(), None);
    while at < recording.bytes() {
        let count = recording.bytes().saturating_sub(at).min(CHUNK as u64);
        let piece = chunk.get_mut(..usize::try_from(count).unwrap_or(0)).unwrap_or_default();
        recording.read_at(at, piece)?;
        for turn in finder.feed(piece) {
            let (Turn::Found { digits } | Turn::Lost { digits }) = turn;
            let word = digits_in(at).saturating_add(digits as u64).saturating_sub(WORD);
            match begun.take() {
                Some(first) => aligned.push((first, word)),
                None => begun = Some(word.saturating_sub(1)),
            }
        }
        at = at.saturating_add(count);
    }
    aligned.extend(begun.map(|first| (first, digits_in(recording.bytes()))));
    let mut stretches = Vec::new();
    for (first, end) in aligned {
        if let Start::At(digit) = start(recording, first)? {
            let multiframes = end.saturating_sub(digit) / MULTIFRAME;
            stretches.push(Stretch { digit, multiframes });
        }
    }
    Ok(stretches)
}

/// That a file has so many bytes to a multiframe.
fn whole(input: &Input, each: usize) -> Result<(), Failure> {
    if input.bytes() % each as u64 == 0 {
        return Ok(());
    }
    let (name, bytes) = (shown(input.name()), input.bytes());
    Err(Failure::refused(
        2,
        format!("{name} has {bytes} bytes, no whole number of multiframes, {each} bytes each; cut it where one ends."),
    ))
}

/// That a file belongs to so many multiframes.
fn fits(input: &Input, each: usize, count: u64) -> Result<(), Failure> {
    let wanted = count.saturating_mul(each as u64);
    if input.bytes() == wanted {
        return Ok(());
    }
    let (name, bytes) = (shown(input.name()), input.bytes());
    Err(Failure::refused(
        2,
        format!("{name} has {bytes} bytes, and {count} multiframes of channels want {wanted}, {each} each."),
    ))
}

/// Signalling 0000 for one of channels 1 to 15, which has the first four digits of a byte of the file.
fn silent(refusal: Refusal, signalling: &Input, number: u64) -> Failure {
    let Refusal::Signalling { channel } = refusal else { return refusal.into() };
    let byte =
        number.saturating_mul(SIGNALLING as u64).saturating_add(channel as u64).saturating_sub(1);
    Failure::refused(
        11,
        format!(
            "{}, multiframe {number}: channel {channel} has signalling 0000, which would look like the start of a \
             multiframe; change the first four digits of byte {byte}.",
            shown(signalling.name())
        ),
    )
}
