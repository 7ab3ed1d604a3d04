#!/usr/bin/env python3
"""Spells the names that this repository declares in antt as Rattle does today: tools/respell.py [FOLDER], once, right after Rattle's own port.py.

Words are in snake case, types and modules in camel case: `digitsOf` becomes `digits_of`, and the field `later-set` of a record `later_set`. A dash
between two names of a lemma stays, as in `digits-length`. Functions of src/, exported C names and strings keep theirs. A lemma that would meet a definition is
given `_lem` behind its name. Where two names of one file would become one, nothing is written, and the file is said.
"""
import os
import re
import sys

TOKEN = re.compile(r"[^\s(){}\[\].;,@:\"«»`/]+")
CAMEL = re.compile(r"(?<=[a-z0-9])[A-Z]")
DECLARED = re.compile(r"^(?P<indent> *)(?:(?:abbrev|unfoldable|pub|private|data|record|opaque|inline) )*(?P<name>[^\s(){}.;,@:]+)(?: *[{(][^:]*)? :(?: |$)")
# Lemmas that would meet a definition of the file, by crate; and where a lemma is brought in from elsewhere, the name that it has there.
LEMMAS = {"swap_promises": {"swap_line": "swap_line_lem"}, "rack_promises": {"one_left": "one_left_lem"}, "captures": {"written_on": "written_on_lem"}}
BROUGHT = {"plain_promises/proofs/Bytes.antt": "digit_at", "receiver_recovery/proofs/ZeroLines.antt": "in_frame"}


def files(top):
    for folder, inner, names in os.walk(os.path.join(top, "crates")):
        inner[:] = sorted(i for i in inner if i != "out")
        for name in sorted(names):
            if name.endswith((".antt", ".rt", ".edit")):
                yield os.path.join(folder, name)


def snake(name):
    return CAMEL.sub(lambda m: "_" + m[0].lower(), name)


def ghost_lines(text):
    """For each line of Rust whether it is antt: a ghost use, or in a clause."""
    inside = 0
    for line in text.split("\n"):
        code = line.split("//")[0]
        starts = re.match(r"\s*(requires|ensures|ghost)\b", code)
        said = bool(starts) or inside > 0 or line.lstrip().startswith("//")
        if starts or inside > 0:
            inside += code.count("{") - code.count("}")
        yield line, said


def declared(top):
    """{a name that becomes another: what it becomes}."""
    turned = {}
    for path in files(top):
        if not path.endswith(".antt"):
            continue
        in_record = None
        for line in open(path, encoding="utf-8"):
            bare = line.lstrip()
            indent = len(line) - len(bare)
            if re.match(r"(pub )?record ", bare) and line.rstrip().endswith("where"):
                in_record = indent
            elif bare.strip() and in_record is not None and indent <= in_record:
                in_record = None
            found = DECLARED.match(line)
            if not found:
                continue
            name = found["name"]
            if CAMEL.search(name) and not name[0].isupper():
                turned[name] = snake(name)
            if "-" in name[1:-1] and name[0].islower() and (in_record is not None and indent > in_record or "/specs/" in path):
                turned[name] = snake(name).replace("-", "_")
    return turned


def local(top, turned):
    """Names in camel case that stand for values of one proof alone."""
    for path in files(top):
        if path.endswith(".antt"):
            text = "\n".join(line for line in open(path, encoding="utf-8").read().split("\n") if not line.startswith("use "))
            for word in TOKEN.findall(text):
                if CAMEL.search(word) and word[0].islower() and word not in turned and re.fullmatch(r"[A-Za-z0-9_₀-₉']+", word):
                    turned[word] = snake(word)


def respelled(text, names):
    return TOKEN.sub(lambda m: names.get(m[0], m[0]), text)


def turn(path, text, turned, top):
    inner = os.path.relpath(path, os.path.join(top, "crates"))
    own = dict(turned)
    if path.endswith(".antt"):
        own.update(LEMMAS.get(inner.split(os.sep)[0], {}))
        if inner in BROUGHT:
            name = BROUGHT[inner]
            lines = [re.sub(rf"(?<![\w-]){name}(?![\w-])", f"{name} as {name}_lem" if line.startswith("use ") else f"{name}_lem", line) if ".digit_at." not in line else line
                     for line in text.split("\n")]
            text = "\n".join(lines)
        return respelled(text, own)
    if path.endswith(".edit"):
        return respelled(text, own)
    return "\n".join(respelled(line, own) if ghost else line for line, ghost in ghost_lines(text))


def meet(path, text, turned):
    """The names of a file that would become one."""
    words = set(TOKEN.findall(text))
    paths = set(re.findall(r"\.([a-z]\w*)(?=\.|\.?\{)", text)) | set(re.findall(r"\bc\d*(?:\.before)*\.(\w+)", text)) | set(re.findall(r"proofs\.(\w+)", text))
    by = {}
    for word in words:
        by.setdefault(turned.get(word, word), set()).add(word)
    return [(to, from_) for to, from_ in by.items() if len(from_) > 1 and to not in paths]


def main():
    top = os.path.abspath(sys.argv[1] if len(sys.argv) > 1 else os.path.join(os.path.dirname(__file__), ".."))
    turned = declared(top)
    local(top, turned)
    said = 0
    for path in files(top):
        text = open(path, encoding="utf-8").read()
        if path.endswith(".antt"):
            for to, from_ in meet(path, text, turned):
                print(f"look: {os.path.relpath(path, top)}: {' and '.join(sorted(from_))} become {to}")
                said += 1
    if "--look" in sys.argv:
        return 0
    changed = 0
    for path in files(top):
        text = open(path, encoding="utf-8").read()
        new = turn(path, text, turned, top)
        if new != text:
            changed += 1
            with open(path, "w", encoding="utf-8") as out:
                out.write(new)
    print(f"respell: {len(turned)} names, {changed} files; {said} places to look at")
    return 0


sys.exit(main())
