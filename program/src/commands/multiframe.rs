//! `multiframe`: the multiframe of 2048 kbit/s, place by place.

use serde::Serialize;
use spritbobbin::{multiframe_place, MultiframePlace};

use crate::cli::Multiframe;
use crate::failure::Failure;
use crate::files::{self, Output};
use crate::pictures::multiframe::{draw, Digit};
use crate::report::{written, Report, Saying};

const DIGITS: usize = 4096;
const FRAME: usize = 256;

/// A frame by its 32 bytes: the digits of bytes 0 and 16 by letters, signalling as s and the channel, and else the channel's number.
#[derive(Serialize)]
struct Row {
    frame: usize,
    bytes: Vec<String>,
}

#[derive(Serialize)]
struct Shown {
    kilobits: u32,
    digits: usize,
    frames: Vec<Row>,
    written: Vec<String>,
}

pub fn run(call: Multiframe, mut saying: Saying) -> Result<u8, Failure> {
    let places: Result<Vec<MultiframePlace>, _> = (0..DIGITS).map(multiframe_place).collect();
    let places = places?;
    let mut written = Vec::new();
    if let Some(svg) = &call.svg {
        saying.aside = files::any_standard(&[svg]);
        let mut output = Output::create(svg)?;
        let digits: Vec<Digit> = places.iter().map(drawn).collect();
        output.append(draw(&digits).as_bytes())?;
        written = files::keep(vec![output])?;
    }
    let row = |(frame, places): (usize, &[MultiframePlace])| Row {
        frame,
        bytes: places.chunks(8).map(byte).collect(),
    };
    let frames = places.chunks(FRAME).enumerate().map(row).collect();
    saying.say(&Shown { kilobits: 2048, digits: DIGITS, frames, written })?;
    Ok(0)
}

fn drawn(place: &MultiframePlace) -> Digit {
    match *place {
        MultiframePlace::Signalling(channel) => Digit::Signalling(channel as u64),
        MultiframePlace::Channel(channel) => Digit::Channel(channel as u64),
        other => match letter(&other) {
            '0' => Digit::Fixed(0),
            '1' => Digit::Fixed(1),
            letter => Digit::Spare(letter),
        },
    }
}

fn letter(place: &MultiframePlace) -> char {
    match place {
        MultiframePlace::Word(1) | MultiframePlace::Second => '1',
        MultiframePlace::Word(_) | MultiframePlace::Start => '0',
        MultiframePlace::International => 'M',
        MultiframePlace::Alarm => 'A',
        MultiframePlace::National => 'N',
        MultiframePlace::X => 'X',
        MultiframePlace::Y => 'Y',
        _ => ' ',
    }
}

fn byte(places: &[MultiframePlace]) -> String {
    match places {
        [MultiframePlace::Channel(channel), ..] => channel.to_string(),
        [MultiframePlace::Signalling(one), .., MultiframePlace::Signalling(other)] => {
            format!("s{one} s{other}")
        }
        digits => digits.iter().map(letter).collect(),
    }
}

impl Report for Shown {
    fn text(&self) -> String {
        let mut text = String::from(
            "2048 kbit/s: a multiframe of 4096 digits, 16 frames of 32 bytes, frames and bytes from 0.\n",
        );
        let (low, sixteen) = ("bytes 1 to 15: a channel each", "byte 16");
        text += &format!("frame byte 0   {low:<44} {sixteen:<8} bytes 17 to 31: a channel each\n");
        for row in &self.frames {
            text += &row.text();
        }
        text + "  0 1     fixed: 0011011 is the word, 1 the second digit of a frame without it, 0000 the start of the multiframe\n"
            + "  M A N   spare: M reserved for international use, A alarm, N for use at home\n"
            + "  X Y     spare: Y alarm of the multiframe, X the three beside it\n"
            + "  s1-s30  four digits of signalling for the channel of that number\n"
            + "  1-30    a byte of the channel of that number\n"
            + &written(&self.written)
    }
}

impl Row {
    fn text(&self) -> String {
        let mut text = format!("{:>5}", self.frame);
        for (number, byte) in self.bytes.iter().enumerate() {
            text += &match (number, byte.split_once(' ')) {
                (0, _) => format!(" {byte}"),
                (16, Some((one, other))) => format!(" {one:<4}{other:<4}"),
                (16, None) => format!(" {byte}"),
                _ => format!("{byte:>3}"),
            };
        }
        text + "\n"
    }
}
