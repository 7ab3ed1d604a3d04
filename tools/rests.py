"""What rests on what in a crate, read as text: for tests/edits, where edits of definitions, statements and theorems share a check.

A crate is cut into parts: a function, with its contract and its own proof; a paragraph of specs/ or proofs/, and the head of a section, `module _ .. where`; and what else stands in
the code. A part names others by what its file brings in or declares, and rests on what it stands in. All that a proof can look at is named in it, or in what it names, and so on: what
does not rest on a part is checked as if that part had not changed. More is taken for named than is: that costs a check, and not a verdict.
"""
import itertools, re

from rooms import parts_of

WORDS = re.compile(r'[\s(){}\[\],.;⌜⌝⟦⟧]+')
BRINGS = re.compile(r'(?:ghost |pub )*use Rattle·\w+·(specs|proofs)\.(?:specs|proofs)\.(.+?)(?:\.\{(.*)\}| as (\S+))?;?$')
SIGNED = re.compile(r'\s*(?:(?:pub|abbrev|unfoldable|record|data) )*([^:(){}=]+?)(?: [({].*)? : ')
CODE = ('code',)


def cut(path, text):
    """A file cut into parts: [(part, text)], which joined by line ends are the file."""
    if path.startswith('src/') or path.endswith('/Proof.antt'):
        return [(('fn', function) if function else CODE, body) for function, _, body in parts_of(path, text)]
    lines, numbers, k, heads = text.split('\n'), [], 0, False
    for i, line in enumerate(lines):
        if i and line and (not lines[i - 1] or heads and lines[i - 1].endswith(' where')):
            k, heads = k + 1, False
        heads |= line.lstrip().startswith('module ')
        numbers.append(k)
    return [((path, k), '\n'.join(line for _, line in run)) for k, run in itertools.groupby(zip(numbers, lines), lambda one: one[0])]


def first_of(text):
    """The line in which a part begins, comments left out."""
    return next((line for line in text.split('\n') if line and not line.lstrip().startswith('--')), '')


def indent_of(line):
    return len(line) - len(line.lstrip())


def declared(text):
    """The names that a part makes for others: those of its signatures that stand no deeper than its first line, and a type's constructors. What follows a `where` is its own; and of a
    record only its own name counts, as whoever has one has named it or what made it."""
    first = first_of(text)
    most = indent_of(first) + 2 * bool(re.match(r'\s*(?:pub )?data ', first))
    lines = [line for line in text.split('\n') if indent_of(line) <= most and not line.lstrip().startswith('--')]
    return {name for line in lines for names in SIGNED.findall(line)[:1] for name in names.split()}


class Rests:
    """The parts of a crate, and which rest on which."""

    def __init__(self, crate):
        self.crate, self.texts, self.where = crate, {}, {}
        for path, text in crate.texts.items():
            for part, body in cut(path, text):
                self.texts.setdefault(part, []).append((path, body))
                self.where.setdefault(path, []).append(part)
        self.above = {part: set() for part in self.texts}
        self.declares = {part: declared(bodies[0][1]) for part, bodies in self.texts.items() if part[0] not in ('fn', 'code')}
        for path in self.where:
            self.nest(path)
        for part in self.texts:
            for other in self.named_in(part):
                self.above[other].add(part)

    def nest(self, path):
        """Parts that stand in another rest on it; and where it is no section, it rests on them, and what they declare is not for others."""
        around = []
        for part in self.where[path] if path.endswith('.antt') and not path.endswith('/Proof.antt') else []:
            first = first_of(self.texts[part][0][1])
            if not first:
                continue  # comments alone
            around = [(other, indent, section) for other, indent, section in around if indent < indent_of(first)]
            for other, _, section in around[-1:]:
                self.above[other].add(part)
                if not section:
                    self.above[part].add(other)
                    self.declares[part] = set()
            around.append((part, indent_of(first), first.lstrip().startswith('module ')))

    def module(self, folder, name):
        """The parts of a module that a line brings in: of a file, or a function."""
        names = name.split('.')
        if folder == 'specs' and names[0] == 'declared':
            return [CODE] if CODE in self.texts else []
        for k in range(len(names), 0, -1):
            path = f'{folder}/{"/".join(names[:k])}.antt'
            if path in self.where:
                return self.where[path]
            if folder == 'proofs' and ('fn', '::'.join(names[:k])) in self.texts:
                return [('fn', '::'.join(names[:k]))]
        # made from the code: a declared type's; or functions' that call one another, which are not told apart here
        return list(self.texts) if '+' in name or CODE not in self.texts else [CODE]

    def brought_by(self, path):
        """What a file's lines bring in: {the words that may stand for it, where it is an operator its own as well: the parts it may mean}."""
        out = {}
        for folder, module, names, other in (found.groups() for found in map(BRINGS.match, self.crate.texts[path].split('\n')) if found):
            parts = self.module(folder, module)
            for name in names.split(', ') if names else [other or module.split('.')[-1]]:
                means = [part for part in parts if name in self.declares.get(part, ())] if names else parts
                if not means:  # of a function or a declared type; else it is not known whose it is
                    means = parts if all(part[0] in ('fn', 'code') for part in parts) else self.texts
                out.setdefault((name, *filter(None, name.split('_') if names else [])), set()).update(means)
        return out

    def named_in(self, part):
        """The parts that a part names."""
        out = set()
        for path, body in self.texts[part]:
            words = set(WORDS.split('\n'.join(line for line in body.split('\n') if not line.lstrip().startswith(('use ', 'pub use ', 'ghost use ', '--')))))
            brought = self.brought_by(path)
            for spelt, parts in brought.items():
                if words.intersection(spelt):
                    out |= parts
            if part[0] == path:
                out |= {other for other in self.where[path] if other[1] == 0 or self.declares[other] & words}
            elif part[0] == 'fn':
                called = set(re.findall(r'\b(\w+)\(', body))
                out |= {other for other in self.texts if other == CODE or other[0] == 'fn' and other[1].split('::')[-1] in called}
        return out - {part}

    def resting_on(self, parts):
        """These parts and all that rests on one of them."""
        out, todo = set(), list(parts)
        while todo:
            part = todo.pop()
            if part not in out:
                out.add(part)
                todo += self.above.get(part, ())
        return out

    def on_itself(self, part):
        """Whether a part rests on another that rests on it, as a function whose proof cites a law about this very function."""
        return any(part in self.resting_on({other}) for other in self.above[part])

    def changed_by(self, texts):
        """The parts that an edit changes, by the files as it leaves them; nothing where it leaves a file of other parts, or changes the code outside functions."""
        out = set()
        for path, text in texts.items():
            was, now = cut(path, self.crate.texts[path]), cut(path, text)
            if [part for part, _ in was] != [part for part, _ in now]:
                return set()
            out |= {part for (part, a), (_, b) in zip(was, now) if a != b}
        return set() if CODE in out else out

    def part_at(self, path, line):
        """The part that has a line of a file."""
        first = 1
        for part, body in cut(path, self.crate.texts[path]) if path in self.crate.texts else []:
            first += body.count('\n') + 1
            if line < first:
                return part
        return None


def proves(part):
    """Whether something can fail in a part: a function, or what stands in proofs/."""
    return part[0] == 'fn' or part[0].startswith('proofs/')


def merged(crate, texts):
    """The files as several edits leave them that change no part in common: {path: text}."""
    out = {}
    for path in {path for one in texts for path in one}:
        edited = [cut(path, one[path]) for one in texts if path in one]
        out[path] = '\n'.join(next((e[i][1] for e in edited if e[i] != whole), whole[1]) for i, whole in enumerate(cut(path, crate.texts[path])))
    return out
