"""The text of a command, made of its JSON object; for tests/commands.

What a command says as JSON and what it says as text are two forms of the same; here the one is made of the other, by what docs/JSON.md says of each field.
"""
def written(said):
    return "".join(f"written: {name}\n" for name in said["written"])


def table(said):
    """The four tributaries, and what was wrong in all words."""
    rows = said["tributaries"]
    columns = [(name, 14 if name == "digits" else 13) for name in ("digits", "stuffed", "negative", "dissent") if name in rows[0]]
    text = f"{'tributary':>9}" + "".join(f"{name:>{width}}" for name, width in columns) + "\n"
    for row in rows:
        text += f"{row['tributary']:>9}" + "".join(f"{row[name]:>{width}}" for name, width in columns) + "\n"
    if "alignment_wrong" in said:
        text += f"alignment digits wrong: {said['alignment_wrong']}\n"
    return text


def time(microseconds):
    """A time as every command says it."""
    seconds = microseconds // 1000000
    if not seconds:
        return f"{microseconds // 1000}.{microseconds % 1000:03} ms"
    return f"{seconds // 60} min " * (seconds > 59) + f"{seconds % 60}.{microseconds % 1000000:06} s"


def of_digits(digits, kilobits):
    """The time of a digit, or of so many, to the nearest microsecond."""
    return time((2000 * digits + kilobits) // (2 * kilobits))


RATES = {2: 8448, 3: 34368, 4: 139264, 12: 8448, 14: 139264}
FRAMES = {2: 848, 3: 1536, 4: 2928, 12: 1056, 14: 2176}


def stretches(said):
    text = ""
    for one in said.get("stretches", []):
        last, when = one["first"] + one["frames"] - 1, of_digits(one["digit"], RATES[said["level"]])
        text += f"frames {one['first']} to {last}: from digit {one['digit']} of the recording on ({when})\n"
    return text


def unknown_votes(said):
    frames = said.get("votes_unknown", [])
    if not frames:
        return ""
    which = f"frame {frames[0]}" if len(frames) == 1 else "the first frame of each stretch" + " but the first" * (frames[0] > 0)
    assert set(frames) <= {one["first"] for one in said["stretches"]}
    return f"The vote before {which} is not known and taken as 0: there a tributary that voted 1 has a digit too many.\n"


def send(said):
    assert said["evidence"] is False
    head = f"Level {said['level']}: {said['frames']} frames sent.\n"
    return head + table(said) + "This line was made here: it is no evidence of what a multiplexer sent.\n" + written(said)


def take(said):
    return stretches(said) + unknown_votes(said) + f"Level {said['level']}: {said['frames']} frames taken apart.\n" + table(said) + written(said)


def extract(said):
    return f"Level {said['level']}: {said['frames']} frames taken apart by these notes.\n" + table(said) + written(said)


def notes(said):
    signed = said["level"] > 4
    text = stretches(said) + unknown_votes(said)
    text += f"    frame  {'  votes  acts   ' if signed else 'stuffed  service'}  dissent 1 2 3 4  alignment\n"
    for row in said["rows"]:
        decided = "".join(str(j) if j in row["decided"] else "-" for j in (1, 2, 3, 4))
        assert sum(1 << j - 1 for j in row["decided"]) == row["note"] % 16
        rest = row["acts"] if signed else "".join(str(digit) for digit in row["service"])
        dissent = " ".join(str(digits) for digits in row["dissent"])
        text += f"{row['frame']:>9}  {decided:7}  {rest:7}  {'':7} {dissent}  {row['alignment_wrong']:>9}\n"

    def four(name):
        return " ".join(str(row[name]) for row in said["tributaries"])

    text += f"Level {said['level']}: {said['frames']} notes read.\n"
    text += f"stuffed frames of tributaries 1 to 4:     {four('stuffed')}\n"
    if signed:
        text += f"negative digits of tributaries 1 to 4:    {four('negative')}\n"
    text += f"dissenting digits of tributaries 1 to 4:  {four('dissent')}\n"
    return text + f"alignment digits wrong: {said['alignment_wrong']}\n" + written(said)


def agree(said):
    assert said["agree"] is True
    compared = said["compared"]
    return (
        f"Level {said['level']}: {said['frames']} frames, by the quick engine and by the plain one.\n"
        f"bytes compared after read_notes: {compared['read_notes']}\n"
        f"bytes compared after extract:    {compared['extract']}\n"
        f"bytes compared after multiplex:  {compared['multiplex']}\n"
        "The two engines agree, in every byte and in what each call answered.\n"
    )


def events(said, why):
    return "".join(f"{one['event']} at digit {one['digit']} ({time(one['microseconds'])}): {why[one['event']]}\n" for one in said["events"])


def mode(said):
    missed = f", {said['words_missed']} words missed" if "words_missed" in said else ""
    return f"at the end: {said['mode']}{missed}\n"


def find(said):
    assert said["digits"] == 8 * said["bytes"]
    text = f"Level {said['level']}: {said['bytes']} bytes, {said['digits']} digits, numbered from 0.\n"
    text += events(
        said,
        {
            "found": "the third good word in a row, and the first frame handed over",
            "lost": "the fourth wrong word in a row, and its frame is not handed over",
            "alarm indication begins": "the second stretch in a row with few zeros ends there",
            "alarm indication ends": "the second stretch in a row with more zeros ends there",
        },
    )
    if not said["found"]:
        text += f"alignment was not found: three good words in a row, {FRAMES[said['level']]} digits apart, did not come\n"
    text += f"frames handed over: {said['frames']}\n" + table(said) + f"words tested: {said['words_tested']}\n" + mode(said)
    return text + (stretches(said) if said["written"] else "") + unknown_votes(said) + written(said)


def watch(said):
    text = "line  level  aligned  alarm      frames     dissent    words tested  recording\n"
    yes = {True: "yes", False: "no"}
    for one in said["lines"]:
        text += f"{one['line']:>4}{one['level']:>7}{yes[one['aligned']]:>9}{yes[one['alarm']]:>7}{one['frames']:>12}{one['dissent']:>12}"
        text += f"{one['words_tested']:>16}  {one['recording']}\n"
    return text + f"aligned lines: {said['aligned']}\n"


def swap(said):
    text = f"Level {said['level']}: {said['frames']} frames, {said['digits']} digits put into tributary {said['tributary']}.\n"
    return text + written(said)


def label(said):
    return f"label: {said['label_shown']}\n" if "label_shown" in said else ""


def rated(said):
    return f"Level {said['level']}, {said['kilobits']} kbit/s\nframes: {said['frames']}\n"


def repair(said):
    assert said["evidence"] is False
    text = rated(said) + label(said) + f"digits repaired: {said['repaired']}\n"
    assert said["repaired"] == said["word"] + said["national"] + sum(said["control"]) + sum(said["stuffing"])
    if said["repaired"]:
        text += f"\n  alignment word  {said['word']:>6}\n"
        if said["asked_national"]:
            text += f"  national digits {said['national']:>6}\n"
        text += "                  control  stuffing\n"
        for j in range(4):
            text += f"  tributary {j + 1}     {said['control'][j]:>7}{said['stuffing'][j]:>10}\n"
    return text + "What is repaired is no evidence: keep the file that was read.\n" + written(said)


def keep(said):
    return rated(said) + label(said) + written(said)


def compare(said):
    text = f"Level {said['level']}, {said['kilobits']} kbit/s\nframes compared: {said['frames']}\n"
    if "offset" in said:
        text += offset(said)
    text += overlaps(said)
    text += f"differing digits: {said['differing']}\n"
    if said["differing"]:
        for name, key in (("alignment word", "word"), ("remote alarm", "remote_alarm"), ("national", "national")):
            text += f"\n  {name:<16}{said[key]:>6}"
        text += "\n                  control  justification  ordinary\n"
        for j, of in enumerate(said["tributaries"]):
            text += f"  tributary {j + 1}     {of['control']:>7}{of['justification']:>15}{of['ordinary']:>10}\n"
        if said["differing"] > len(said["first"]):
            text += f"\nThe first {len(said['first'])}:"
        text += "\n  frame  place  which is\n"
        for one in said["first"]:
            whose = f", tributary {one['tributary']}" if one["tributary"] else ""
            text += f"{one['frame']:>7}{one['place']:>7}  {one['kind']}{whose}\n"
    return text + written(said)


def overlaps(said):
    text = ""
    for one in said.get("overlaps", []):
        last, last_other = (one[name] + one["frames"] - 1 for name in ("first", "first_other"))
        text += f"frames {one['first']} to {last} of the first file are frames {one['first_other']} to {last_other} of the second, "
        text += f"differing digits: {one['differing']}\n"
    if "not_compared" in said:
        assert said["frames"] == sum(one["frames"] for one in said["overlaps"])
        one, other = said["not_compared"]
        text += f"frames not compared: {one} of the first file, {other} of the second\n"
    return text


def offset(said):
    frames = said["offset"]
    if frames == 0:
        return "frame offset: none, frame 0 of one is frame 0 of the other\n"
    side = "first" if frames > 0 else "second"
    return f"frame offset: frame {abs(frames)} of the {side} file is frame 0 of the other\n"


def build(said):
    return f"{said['multiframes']} multiframes built.\n" + written(said)


def apart(said):
    text = ""
    for one in said.get("stretches", []):
        text += f"{one['multiframes']} multiframes from digit {one['digit']} of the recording on ({of_digits(one['digit'], 2048)})\n"
    return text + f"{said['multiframes']} multiframes taken apart.\n" + written(said)


def hunt(said):
    text = f"2048 kbit/s: {said['bytes']} bytes, {said['digits']} digits, numbered from 0.\n"
    why = {"found": "the second good word, after a second digit of 1", "lost": "the third wrong word in a row", "multiframe begins": "0000 in byte 16"}
    for one in said["events"]:
        none = one["event"] == "no multiframe begins"
        text += "no multiframe begins in the sixteen frames from there on\n" if none else events({"events": [one]}, why)
    if not said["times_found"]:
        text += "alignment was not found: two good words 512 digits apart, with a second digit of 1 between them, did not come\n"
    return text + f"times found: {said['times_found']}\ntimes lost: {said['times_lost']}\n" + mode(said)


def share(part, every):
    """A ratio as judge says it."""
    if not part or not every:
        return "0"
    mantissa, exponent = f"{part / every:.2e}".split("e")
    return f"{mantissa}e{int(exponent)}"


def judge(said):
    many = lambda count, thing: f"{count:,} {thing}" + ("" if count == 1 else "s")
    against = said["against"].get("sent") or f"the pattern of 2^{said['against'].get('pattern')} - 1 digits, inverted"
    kilobits, frame = said["kilobits"], FRAMES[said["level"]]
    text = f'label: "{said["label"]}"\n' if "label" in said else ""
    text += f"Level {said['level']}, {kilobits} kbit/s: {many(said['frames'], 'frame')}, {of_digits(frame * said['frames'], kilobits)}, held against {against}. "
    text += f"Clocks: taking the line at {kilobits} kbit/s.\n"
    if said["found"] and not said["stretches"]:
        text += f"no frame found in {many(said['digits'], 'digit')}.\n"
    end = 0
    for one in said["stretches"] if said["found"] else []:
        if 0 < end < one["digit"]:
            text += f"gap of {many(one['digit'] - end, 'digit')}\n"
        text += f"stretch of {many(one['frames'], 'frame')} from digit {one['digit']:,}, {of_digits(one['digit'], kilobits)}"
        if "begins" in one:
            begins = ", ".join(f"{digit:,}" for digit in one["begins"])
            text += f"; begins in what was sent at digits {begins}, where {one['differ']:,} of {one['looked']:,} differ ({share(one['differ'], one['looked'])})"
        text += f": {', '.join(one['verdicts'])}\n"
        end = one["digit"] + frame * one["frames"]
    if said["frames_not_reached"]:
        text += f"not judged, because what was sent ends before them: {many(said['frames_not_reached'], 'frame')}\n"
    for of in said["tributaries"]:
        for read in of["readings"].values():
            assert read["cost"] == read["wrong"] + 16 * read["slips"]
        text += f"tributary {of['tributary']}: {of['sentence']}\n  clock: {of['clock']['sentence']}\n"
    return text + said["sentence"] + "\n" + written(said)


def text(said):
    """A command whose lines are themselves what it has to say."""
    return "".join(line + "\n" for line in said["text"]) + written(said)


def frame(said):
    more = ", one more where its negative place carries one" if said["negative_places"] else ""
    text = f"Level {said['level']}: a frame of {said['digits']} digits, places 0 on, in {said['sets']} sets; each tributary has "
    text += f"{said['tributary_digits']} digits, one fewer where stuffed{more}."
    before = 0
    for run in said["runs"]:
        text += ", " if run["set"] == before else f"\n  set {run['set']}: "
        before = run["set"]
        text += str(run["first"]) + (f"-{run['last']}" if run["last"] > run["first"] else "") + " " + run["kind"]
        text += "".join(f" {j}" for j in run.get("tributaries", []))
        text += f" = {run['holds']}" if "holds" in run else ""
    return text + "\n" + written(said)


def multiframe(said):
    text = "2048 kbit/s: a multiframe of 4096 digits, 16 frames of 32 bytes, frames and bytes from 0.\n"
    text += f"frame byte 0   {'bytes 1 to 15: a channel each':<44} {'byte 16':<8} bytes 17 to 31: a channel each\n"
    for row in said["frames"]:
        text += f"{row['frame']:>5} {row['bytes'][0]}"
        for number, byte in enumerate(row["bytes"][1:], 1):
            parts = byte.split(" ")
            text += f"{byte:>3}" if number != 16 else " " + byte if len(parts) == 1 else f" {parts[0]:<4}{parts[1]:<4}"
        text += "\n"
    text += "  0 1     fixed: 0011011 is the word, 1 the second digit of a frame without it, 0000 the start of the multiframe\n"
    text += "  M A N   spare: M reserved for international use, A alarm, N for use at home\n"
    text += "  X Y     spare: Y alarm of the multiframe, X the three beside it\n"
    text += "  s1-s30  four digits of signalling for the channel of that number\n"
    return text + "  1-30    a byte of the channel of that number\n" + written(said)


def cut(said):
    text = stretches(said) + f"Level {said['level']}, {said['kilobits']} kbit/s\n"
    text += f"frames cut out: {said['frames']}, from frame {said['first']} on ({time(said['microseconds'])})\n"
    return text + written(said)


def quarters(said):
    return f"four quarters of {said['quarter_bytes']} bytes.\n" + written(said)


SAID = {"send": send, "take": take, "extract": extract, "notes": notes, "agree": agree, "find": find, "watch": watch, "swap": swap, "repair": repair}
SAID |= {"keep": keep, "show": keep, "compare": compare, "build": build, "apart": apart, "hunt": hunt, "frame": frame, "multiframe": multiframe}
SAID |= {"cut": cut, "split": quarters, "join": quarters, "judge": judge, "demo": text}


def text_of(command, object_said):
    return SAID[command](object_said)
