//! The multiframe of 2048 kbit/s: sixteen frames down, 32 bytes across. Bytes 0 and 16 are as wide as
//! their eight digits want, so that each can be read.

use super::svg::Svg;

/// What a digit of the multiframe is.
#[derive(Clone, Copy, Debug, PartialEq, Eq)]
pub enum Digit {
    /// The same in every multiframe: 0 or 1.
    Fixed(u64),
    /// A spare digit, by its letter: M, A, N, X or Y.
    Spare(char),
    /// Of the signalling of this channel.
    Signalling(u64),
    /// Of this channel.
    Channel(u64),
}

/// The left edge of the cells and the upper edge of frame 0; the width of a digit of bytes 0 and 16 and
/// of a channel's byte; a row's height.
const LEFT: u64 = 82;
const TOP: u64 = 88;
const DIGIT: u64 = 18;
const CHANNEL: u64 = 23;
const ROW: u64 = 27;

const STYLE: &str = "rect{stroke:#fff}.fixed{fill:#1f4e79}.spare{fill:#595959}.signalling{fill:#a8480a}\
.channel{fill:#deebf7;stroke:#4f7299}text{text-anchor:middle}.w{fill:#fff}.l{text-anchor:start}.h{font-size:16px;text-anchor:start}\
.p{fill:#555;font-size:10px}";

/// The picture, by the 4096 digits in order.
pub fn draw(digits: &[Digit]) -> String {
    let title = "2048 kbit/s: a multiframe of 4096 digits, 16 frames of 32 bytes, 2 ms";
    let mut svg = Svg::new(1074, 664, title, STYLE);
    svg.text("h", 12, 28, title);
    svg.text("p l", 12, 48, "A frame is 125 \u{b5}s, a byte 3.9 \u{b5}s. Bytes 0 and 16 are drawn wider than the others.");
    svg.text("p l", 12, TOP - 8, "byte");
    let mut x = LEFT;
    for byte in 0..32 {
        svg.text("p", x + width(byte) / 2, TOP - 8, &byte.to_string());
        x += width(byte);
    }
    let mut y = TOP;
    for (number, frame) in digits.chunks(256).enumerate() {
        svg.text("l", 12, y + 18, &format!("frame {number}"));
        row(&mut svg, frame, y);
        y += ROW;
    }
    legend(&mut svg);
    svg.end()
}

/// The cells of a frame, one behind the other.
fn row(svg: &mut Svg, frame: &[Digit], y: u64) {
    let mut x = LEFT;
    let mut rest = frame;
    while let Some(first) = rest.first() {
        let count = match first {
            Digit::Fixed(_) | Digit::Spare(_) => 1,
            Digit::Signalling(_) => 4,
            Digit::Channel(_) => 8,
        };
        x += cell(svg, *first, x, y);
        rest = rest.get(count..).unwrap_or_default();
    }
}

/// How wide a byte is drawn.
fn width(byte: u64) -> u64 {
    match byte {
        0 | 16 => 8 * DIGIT,
        _ => CHANNEL,
    }
}

/// Draws a cell, and answers how wide it is.
fn cell(svg: &mut Svg, digit: Digit, x: u64, y: u64) -> u64 {
    let (class, width, text) = match digit {
        Digit::Fixed(digit) => ("fixed", DIGIT, digit.to_string()),
        Digit::Spare(letter) => ("spare", DIGIT, letter.to_string()),
        Digit::Signalling(channel) => ("signalling", 4 * DIGIT, format!("ch. {channel}")),
        Digit::Channel(channel) => ("channel", CHANNEL, channel.to_string()),
    };
    boxed(svg, class, x, y, width, &text);
    width
}

/// A cell, and the text in the middle of it.
fn boxed(svg: &mut Svg, class: &str, x: u64, y: u64, width: u64, text: &str) {
    svg.rect(class, [x, y, width, 26]);
    let on = if class == "channel" { "" } else { "w" };
    svg.text(on, x + width / 2, y + 18, text);
}

/// What the colours and letters mean: class, mark and words, and where they stand.
const LEGEND: [(&str, &str, &str, u64, u64); 8] = [
    (
        "fixed",
        "0 1",
        "fixed: 0011011 is the word, 1 in a frame without it, 0000 the start of the multiframe",
        12,
        534,
    ),
    ("spare", "M", "spare: reserved for international use", 12, 566),
    ("spare", "A", "spare: alarm", 372, 566),
    ("spare", "N", "spare: for use at home", 602, 566),
    ("spare", "Y", "spare: alarm of the multiframe", 12, 598),
    ("spare", "X", "spare: three digits beside Y, without a use", 372, 598),
    ("signalling", "ch.", "four digits of signalling for the channel of that number", 12, 630),
    ("channel", "1", "a byte of the channel of that number", 542, 630),
];

fn legend(svg: &mut Svg) {
    for (class, mark, words, x, y) in LEGEND {
        boxed(svg, class, x, y, 30, mark);
        svg.text("l", x + 38, y + 18, words);
    }
}

#[cfg(test)]
mod tests {
    use super::*;

    #[test]
    fn every_letter_is_in_the_legend() {
        let digits = |place: u64| match (place / 256, place / 8 % 32, place % 8) {
            (_, 0, 0) => Digit::Spare('M'),
            (frame, 0, 1) if frame % 2 == 1 => Digit::Fixed(1),
            (frame, 0, 2) if frame % 2 == 1 => Digit::Spare('A'),
            (frame, 0, _) if frame % 2 == 1 => Digit::Spare('N'),
            (_, 0, _) => Digit::Fixed(0),
            (0, 16, 0..=3) => Digit::Fixed(0),
            (0, 16, 5) => Digit::Spare('Y'),
            (0, 16, _) => Digit::Spare('X'),
            (frame, 16, k) => Digit::Signalling(frame + 15 * (k / 4)),
            (_, byte, _) => Digit::Channel(if byte < 16 { byte } else { byte - 1 }),
        };
        let picture = draw(&(0..4096).map(digits).collect::<Vec<Digit>>());
        for mark in ["M", "A", "N", "X", "Y"] {
            let marked = format!(">{mark}</text>");
            let in_frames = if mark == "Y" { 1 } else { 3 };
            assert!(picture.matches(&marked).count() > in_frames, "{mark}");
            assert!(LEGEND.iter().any(|(_, known, ..)| *known == mark));
        }
        // 30 channels in each of 16 frames, and the one in the legend.
        assert_eq!(picture.matches("<rect class=\"channel\"").count(), 481);
        assert_eq!(picture.matches("<rect class=\"signalling\"").count(), 31);
    }
}
