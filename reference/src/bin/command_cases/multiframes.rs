//! Cases of build, apart and multiframe: files of whole multiframes, both ways, and the picture.

use crate::case::{in_turn, words, Case, OLD};
use crate::texts::{cannot, time, written, written_over};
use reference::random::Random;
use reference::{build_multiframe, take_multiframe_apart};

const INPUTS: [&str; 3] = ["channels", "signalling", "spare"];
const BUILD: &str = "build channels signalling spare multiframes";
const APART: &str = "apart multiframes channels signalling spare";

/// The bytes to a multiframe in each of the three files, and in that of multiframes.
const EACH: [usize; 3] = [480, 15, 9];
const WHOLE: usize = 512;

pub fn cases() -> Vec<Case> {
    let mut cases = built();
    cases.extend(taken_apart());
    cases.extend(both_ways());
    cases.extend(in_turn(wrong_lengths(), &["multiframes"]));
    cases.extend(in_turn(silent(), &["multiframes"]));
    cases.extend(in_turn(broken_multiframes(), &INPUTS));
    cases.extend(wrong_inputs());
    cases.extend(wrong_outputs());
    cases.extend(pictures());
    cases
}

/// The contents of the three files.
type Parts = [Vec<u8>; 3];

/// Random parts of so many multiframes; no channel from 1 to 15 signals 0000. The last four
/// digits of each ninth byte of the spare digits are zero.
fn parts(count: usize, seed: u64) -> Parts {
    let mut random = Random::new(seed);
    let [channels, mut signalling, mut spare] = EACH.map(|each| random.bytes(each * count));
    signalling.iter_mut().filter(|byte| **byte < 16).for_each(|byte| *byte |= 0x50);
    spare.iter_mut().skip(8).step_by(9).for_each(|byte| *byte &= 0xF0);
    [channels, signalling, spare]
}

/// The file of multiframes that these parts make.
pub fn build(parts: &Parts) -> Vec<u8> {
    let count = parts[0].len() / EACH[0];
    let part = |which: usize, k: usize| &parts[which][k * EACH[which]..(k + 1) * EACH[which]];
    let one = |k| {
        let mut bytes = vec![0; WHOLE];
        let refusal = build_multiframe(&mut bytes, part(0, k), part(1, k), part(2, k));
        assert_eq!(refusal, (0, 0), "a multiframe is refused");
        bytes
    };
    (0..count).flat_map(one).collect()
}

/// The parts of a file of multiframes.
fn apart(multiframes: &[u8]) -> Parts {
    let mut all = Parts::default();
    for bytes in multiframes.chunks(WHOLE) {
        let [mut channels, mut signalling, mut spare] = EACH.map(|each| vec![0; each]);
        let refusal = take_multiframe_apart(bytes, &mut channels, &mut signalling, &mut spare);
        assert_eq!(refusal, 0, "a multiframe is refused");
        [channels, signalling, spare].iter().zip(&mut all).for_each(|(one, to)| to.extend(one));
    }
    all
}

/// The folder of a case with the three inputs.
fn given(name: &str, parts: &Parts) -> Case {
    INPUTS.iter().zip(parts).fold(Case::new(name), |case, (path, bytes)| case.file(path, bytes))
}

fn build_text(count: usize, path: &str) -> String {
    format!("{count} multiframes built.\n") + &written(&[path])
}

fn apart_text(count: usize) -> String {
    format!("{count} multiframes taken apart.\n") + &written(&INPUTS)
}

fn builds(name: &str, parts: &Parts) -> Case {
    let made = build(parts);
    given(&format!("build-{name}"), parts)
        .accepted(words(BUILD), &build_text(made.len() / WHOLE, "multiframes"))
        .makes("multiframes", &made)
}

fn built() -> Vec<Case> {
    let any: Parts = EACH.map(|each| vec![0xFF; each]);
    let quiet: Parts = [vec![0; 480], vec![0x10; 15], vec![0; 9]];
    let over = parts(2, 201);
    vec![
        builds("one", &parts(1, 200)),
        builds("many", &parts(150, 202)),
        builds("none", &parts(0, 203)),
        builds("all-ones", &any),
        builds("second-channels-silent", &quiet),
        builds("over-an-older-file", &parts(3, 204)).had("multiframes", OLD),
        given("build-over-an-input", &over).fails(
            words("build channels signalling spare spare"),
            &written_over("MULTIFRAMES", "spare", "SPARE"),
        ),
    ]
}

fn takes_apart(name: &str, multiframes: &[u8]) -> Case {
    let made = apart(multiframes);
    let case = Case::new(&format!("apart-{name}"))
        .file("multiframes", multiframes)
        .accepted(words(APART), &apart_text(multiframes.len() / WHOLE));
    INPUTS.iter().zip(&made).fold(case, |case, (path, bytes)| case.makes(path, bytes))
}

/// Multiframes found in a recording that begins 203 bytes late, with noise before it.
fn found() -> Case {
    let made = build(&parts(6, 216));
    let recording = [&[0xFF; 5][..], &made[203..]].concat();
    let made = apart(&made[512..]);
    // Five multiframes are whole; the first begins behind the noise and what is left of the first.
    let digit = 8 * (5 + 512 - 203);
    let text = format!(
        "5 multiframes from digit {digit} of the recording on ({})\n5 multiframes taken apart.\n",
        time(2048, digit)
    );
    let case = Case::new("apart-found-in-a-recording").file("recording", &recording).accepted(
        words("apart --find recording channels signalling spare"),
        &(text + &written(&INPUTS)),
    );
    INPUTS.iter().zip(&made).fold(case, |case, (path, bytes)| case.makes(path, bytes))
}

/// Fixed digits are not looked at, so that any bytes can be taken apart.
fn taken_apart() -> Vec<Case> {
    let older = takes_apart("over-older-files", &Random::new(213).bytes(2 * WHOLE));
    let bytes = Random::new(214).bytes(2 * WHOLE);
    vec![
        takes_apart("built", &build(&parts(5, 210))),
        found(),
        takes_apart("random", &Random::new(211).bytes(140 * WHOLE)),
        takes_apart("none", &[]),
        takes_apart("zeros", &[0; WHOLE]),
        INPUTS.iter().fold(older, |case, path| case.had(path, OLD)),
        Case::new("apart-over-its-input").file("multiframes", &bytes).fails(
            words("apart multiframes multiframes signalling spare"),
            &written_over("CHANNELS", "multiframes", "MULTIFRAMES"),
        ),
    ]
}

/// What is built is taken apart again, and the other way about.
fn both_ways() -> Vec<Case> {
    let parts = parts(130, 220);
    let made = build(&parts);
    assert!(apart(&made) == parts);
    let there = Case::new("build-apart")
        .folder("in")
        .file("in/channels", &parts[0])
        .file("in/signalling", &parts[1])
        .file("in/spare", &parts[2])
        .accepted(
            words("build in/channels in/signalling in/spare multiframes"),
            &build_text(130, "multiframes"),
        )
        .accepted(words(APART), &apart_text(130))
        .makes("multiframes", &made);
    let there =
        INPUTS.iter().zip(&parts).fold(there, |case, (path, bytes)| case.makes(path, bytes));
    let back = takes_apart("build", &made)
        .accepted(words(&BUILD.replace("multiframes", "again")), &build_text(130, "again"))
        .makes("again", &made);
    vec![there, back]
}

/// The three lengths, and which file is named: no whole number, or another number than that of
/// the channels. Refusal 2 comes before 11.
const LENGTHS: [([usize; 3], usize); 9] = [
    ([479, 15, 9], 0),
    ([481, 15, 9], 0),
    ([960, 15, 9], 1),
    ([480, 14, 9], 1),
    ([480, 30, 18], 1),
    ([480, 15, 10], 2),
    ([480, 15, 8], 2),
    ([0, 0, 9], 2),
    ([0, 15, 9], 1),
];

fn wrong_lengths() -> Vec<Case> {
    let refused = |(lengths, which): ([usize; 3], usize)| {
        let (path, bytes, each) = (INPUTS[which], lengths[which], EACH[which]);
        let count = lengths[0] / EACH[0];
        let line = if which == 0 {
            no_whole(path, bytes, each)
        } else {
            format!(
                "refused 2: {path} has {bytes} bytes, and {count} multiframes of channels want \
                 {}, {each} each.",
                count * each
            )
        };
        let name = format!("build-{}-{}-{}-bytes", lengths[0], lengths[1], lengths[2]);
        given(&name, &lengths.map(|length| vec![0; length])).fails(words(BUILD), &line)
    };
    LENGTHS.into_iter().map(refused).collect()
}

fn no_whole(path: &str, bytes: usize, each: usize) -> String {
    format!(
        "refused 2: {path} has {bytes} bytes, no whole number of multiframes, {each} bytes \
         each; cut it where one ends."
    )
}

/// Multiframes, and those channels of multiframes that signal 0000, the first one first.
type Silent = (usize, &'static [(usize, usize)]);

const SILENT: [Silent; 5] = [
    (1, &[(0, 1)]),
    (1, &[(0, 15)]),
    (3, &[(1, 7), (1, 8), (2, 1)]),
    (140, &[(139, 15)]),
    (140, &[(64, 1), (130, 2)]),
];

fn silent() -> Vec<Case> {
    let refused = |(count, places): Silent| {
        let mut parts = parts(count, 230);
        places.iter().for_each(|(k, channel)| parts[1][15 * k + channel - 1] &= 0x0F);
        let (k, channel) = places[0];
        let line = format!(
            "refused 11: signalling, multiframe {k}: channel {channel} has signalling 0000, \
             which would look like the start of a multiframe; change the first four digits of \
             byte {}.",
            15 * k + channel - 1
        );
        let name = format!("build-silent-{channel}-in-{k}-of-{count}");
        given(&name, &parts).fails(words(BUILD), &line)
    };
    SILENT.into_iter().map(refused).collect()
}

fn broken_multiframes() -> Vec<Case> {
    let refused = |bytes: usize| {
        Case::new(&format!("apart-{bytes}-bytes"))
            .file("multiframes", &vec![0x1B; bytes])
            .fails(words(APART), &no_whole("multiframes", bytes, WHOLE))
    };
    [1, 511, 513, 70_000].into_iter().map(refused).collect()
}

fn wrong_inputs() -> Vec<Case> {
    let parts = parts(1, 240);
    let mut cases = Vec::new();
    for missing in INPUTS {
        let there = INPUTS.iter().zip(&parts).filter(|(path, _)| **path != missing);
        let case = |name: &str| Case::new(&format!("build-{missing}-{name}"));
        let with =
            |case| there.clone().fold(case, |case: Case, (path, bytes)| case.file(path, bytes));
        let none = with(case("missing")).fails(words(BUILD), &cannot(missing, "opened"));
        cases.extend(none.twice(&["multiframes"]));
        let folder = with(case("folder")).folder(missing);
        cases.push(folder.fails(words(BUILD), &cannot(missing, "read")));
    }
    let none = Case::new("apart-missing").fails(words(APART), &cannot("multiframes", "opened"));
    cases.extend(none.twice(&INPUTS));
    let folder = Case::new("apart-folder").folder("multiframes");
    cases.push(folder.fails(words(APART), &cannot("multiframes", "read")));
    cases
}

/// No output is touched if one of them cannot be written.
fn wrong_outputs() -> Vec<Case> {
    let parts = parts(1, 250);
    let made = build(&parts);
    let nowhere = words(&BUILD.replace("multiframes", "none/out"));
    let mut cases = vec![
        given("build-in-no-folder", &parts).fails(nowhere, &cannot("none/out", "written")),
        given("build-over-a-folder", &parts)
            .folder("multiframes")
            .fails(words(BUILD), &cannot("multiframes", "written")),
    ];
    for path in INPUTS {
        let others: Vec<&str> = INPUTS.into_iter().filter(|other| *other != path).collect();
        let given =
            |name: &str| Case::new(&format!("apart-{path}-{name}")).file("multiframes", &made);
        let folder = given("over-a-folder").folder(path);
        let folder = folder.fails(words(APART), &cannot(path, "written"));
        cases.extend(folder.twice(&others));
        let nowhere = words(&APART.replace(path, "none/out"));
        cases.push(given("in-no-folder").fails(nowhere, &cannot("none/out", "written")));
    }
    cases
}

fn pictures() -> Vec<Case> {
    let nowhere = words("multiframe --svg none/picture.svg");
    let draws = |name| {
        let command = words("multiframe --svg picture.svg");
        let text = picture() + &written(&["picture.svg"]);
        Case::new(name).accepted(command, &text).draws("picture.svg")
    };
    vec![
        Case::new("multiframe").accepted(words("multiframe"), &picture()),
        draws("multiframe-svg"),
        draws("multiframe-svg-over-an-older-file").had("picture.svg", OLD),
        Case::new("multiframe-svg-in-no-folder")
            .fails(nowhere, &cannot("none/picture.svg", "written")),
    ]
}

/// The multiframe in text: tables 1 and 2, a line to a frame.
fn picture() -> String {
    let channels =
        |first: usize| (first..first + 15).map(|c| format!("{c:>3}")).collect::<String>();
    let mut text = String::from(
        "2048 kbit/s: a multiframe of 4096 digits, 16 frames of 32 bytes, frames and bytes \
         from 0.\n",
    );
    let across = ["frame", "byte 0", "bytes 1 to 15: a channel each", "byte 16"];
    let [frame, zero, low, sixteen] = across;
    text += &format!("{frame} {zero:<8} {low:<44} {sixteen:<8} bytes 17 to 31: a channel each\n");
    for k in 0..16 {
        let zero = if k % 2 == 0 { "M0011011" } else { "M1ANNNNN" };
        let signals = [k, k + 15].map(|c| format!("{:<4}", format!("s{c}"))).concat();
        let sixteen = if k == 0 { "0000XYXX".into() } else { signals };
        text += &format!("{k:>5} {zero}{} {sixteen}{}\n", channels(1), channels(16));
    }
    text + "  0 1     fixed: 0011011 is the word, 1 the second digit of a frame without it, 0000 \
            the start of the multiframe\n"
        + "  M A N   spare: M reserved for international use, A alarm, N for use at home\n"
        + "  X Y     spare: Y alarm of the multiframe, X the three beside it\n"
        + "  s1-s30  four digits of signalling for the channel of that number\n"
        + "  1-30    a byte of the channel of that number\n"
}
