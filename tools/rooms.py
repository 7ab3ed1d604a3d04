"""What tests/edits and tools/mutants share: a crate's files cut into functions, a room in which changed crates are checked, and what a check's errors say.

A check there costs what the change touches: it is made in a copy of the crate, over the modules that `rt check` proved and left in the crate's rlib. And one check serves many
changes: a function is proved from its own code and contract and from the contracts of what it calls, so that what is wrong with one function's body is said of that function alone;
and several crates, none of which stands on another, are checked in one run as well as in many, which then reads the logic and what they stand on only once.
"""
import contextlib, glob, itertools, os, re, shutil, signal, subprocess, tempfile


def text_of(path):
    with open(path, encoding='utf-8') as file:
        return file.read()


FUNCTION = re.compile(r'(?:pub )?(?:extern "C" )?fn (\w+)(?:<[^>]*>)?\(')
IN_A_LINE = re.compile(r'[^{]*\)(?: -> (?:\[[^\]]*\]|\S+))? \{.*\}$')


def owners_of(path, text):
    """For each line of a file the function that it belongs to, and whether to its head: its signature and contract, with the brace that opens its body. (None, False) for what stands
    between functions, where a closing brace stands too. A file of proofs is a function's own where it is the proof of one."""
    lines = text.split('\n')
    if path.startswith('proofs/') and path.endswith('/Proof.antt'):
        return [(path[7:-11].replace('/', '::'), False)] * len(lines)
    if not path.startswith('src/'):
        return [(None, False)] * len(lines)
    module = [m for m in path[4:-3].split('/') if m not in ('lib', 'main', 'mod')]
    out, owner = [], (None, False)
    for line in lines:
        began = FUNCTION.match(line)
        if began:
            owner = '::'.join([*module, began.group(1)]), True
        elif owner[0] and not owner[1] and line == '}':
            owner = None, False
        out.append(owner)
        if owner[1] and (line == '{' or line.endswith('{') and (began or line[0] == ')')):
            owner = owner[0], False
        elif owner[1] and began and IN_A_LINE.match(line):
            owner = None, False
    return out


def parts_of(path, text):
    """A file's text cut where functions and their bodies begin and end: [(function, whether it is its head, text)], and (None, False, text) for what stands between."""
    owned = zip(owners_of(path, text), text.split('\n'))
    return [(*owner, '\n'.join(line for _, line in part)) for owner, part in itertools.groupby(owned, lambda one: one[0])]


class Crate:
    """A crate's files as they stand, and its functions, with those that another calls."""

    def __init__(self, folder):
        files = [file for part in ('src', 'specs', 'proofs') for file in glob.glob(os.path.join(folder, part, '**', '*.*t'), recursive=True)]
        self.texts = {os.path.relpath(file, folder): text_of(file) for file in files}
        parts = [part for path, text in self.texts.items() if path.startswith('src/') for part in parts_of(path, text) if part[0]]
        self.functions = {f for f, _, _ in parts}
        self.called = {f for f in self.functions for g, head, text in parts if f != g and not head and re.search(rf'\b{f.split("::")[-1]}\(', text)}


def copy_of(function, k):
    return f'{function}_edit{k}'


def copied(texts, function, k, code):
    """A function under another name, from the lines of its code, and its proof, if these files have one: the lines, and {path: text}."""
    short, new = function.split('::')[-1], copy_of(function, k).split('::')[-1]
    code = [re.sub(rf'fn {short}\b', f'fn {new}', code[0], 1).replace('pub extern "C" fn', 'fn', 1), *code[1:], '}']
    proof = texts.get(f'proofs/{function.replace("::", "/")}/Proof.antt')
    if proof is None:
        return code, {}
    inside = 'proofs.' + function.replace('::', '.')
    proof = proof.replace(inside + '.', copy_of(inside, k) + '.')
    proof = re.sub(rf'(?<![\w-]){short.replace("_", "-")}-spec\b', new.replace('_', '-') + '-spec', proof)
    return code, {f'proofs/{copy_of(function, k).replace("::", "/")}/Proof.antt': proof}


def crates_below():
    """What each crate of crates.txt stands on."""
    lines = [line.split('#')[0].split(':') for line in open('crates.txt', encoding='utf-8')]
    return {line[0].strip(): line[1].split() for line in lines if len(line) == 2}


class Room:
    """A folder with a copy of each crate whose edits are tried and of its modules as they were proved; what the crate stands on is read where it is."""

    def __init__(self, top):
        self.top, self.below, self.rlib = top, crates_below(), os.path.abspath(os.path.join('target', 'rlib'))
        self.build = self.name_of_build()

    def crate(self, name):
        return os.path.join(self.top, 'crates', name)

    def kept(self, name):
        return os.path.join(self.top, 'kept', name)

    def name_of_build(self):
        """The folder below an incremental folder in which this kit keeps modules, as the check of a crate with next to nothing in it makes it."""
        os.makedirs(os.path.join(self.crate('nothing'), 'src'))
        with open(os.path.join(self.crate('nothing'), 'src', 'lib.rt'), 'w', encoding='utf-8') as out:
            out.write('pub fn nothing() {}\n')
        status, said = self.check_over('nothing', self.kept('nothing'))
        if status != 0:
            raise SystemExit('rooms: an empty crate is not proved:\n' + said)
        return os.listdir(self.kept('nothing'))[0]

    def move_in(self, name):
        """Copies a crate and its modules."""
        for part in ('src', 'specs', 'proofs'):
            if os.path.isdir(os.path.join('crates', name, part)):
                shutil.copytree(os.path.join('crates', name, part), os.path.join(self.crate(name), part))
        os.makedirs(self.kept(name))
        proved = os.path.join(self.rlib, name + '.rlib', 'toolchain', 'checked')
        if os.path.isdir(proved):  # a program has no rlib: its first check is a whole one
            shutil.copytree(proved, os.path.join(self.kept(name), self.build))

    @contextlib.contextmanager
    def edited(self, name, texts):
        """The copy of a crate with these files, until it is put back as it was."""
        crate = self.crate(name)
        were = {path: text_of(os.path.join(crate, path)) for path in texts if os.path.exists(os.path.join(crate, path))}
        try:
            self.write(crate, texts)
            yield
        finally:
            self.write(crate, were)
            for path in texts.keys() - were.keys():
                os.remove(os.path.join(crate, path))
                os.removedirs(os.path.dirname(os.path.join(crate, path)))

    @contextlib.contextmanager
    def modules_of(self, names):
        """A folder with the modules of crates that were moved in. What a check writes there is not kept, as the next one would have to check those modules again."""
        modules = tempfile.mkdtemp(prefix=names[0], dir=self.top)
        try:
            for name in names:
                shutil.copytree(self.kept(name), modules, copy_function=os.link, dirs_exist_ok=True)
            yield modules
        finally:
            shutil.rmtree(modules)

    def check(self, name, texts, seconds=None):
        """The check of a crate in its copy with these files, over the modules that were moved in: its exit status, none where it takes longer than it may, and what it says."""
        with self.modules_of([name]) as modules, self.edited(name, texts):
            return self.check_over(name, modules, seconds)

    def check_together(self, changed):
        """The same of several crates at once, {crate: files}, none of which stands on another: {crate: (exit status, what is said of it)}. Where the run does not come to a verdict,
        or says something of none of them, each is checked by itself."""
        if len(changed) > 1:
            with contextlib.ExitStack() as stack:
                modules = stack.enter_context(self.modules_of(list(changed)))
                for name, texts in changed.items():
                    stack.enter_context(self.edited(name, texts))
                status, said = self.run('nothing', [d for name in changed for d in self.below[name]], modules, libraries=list(changed))
            told = self.told_apart(said, list(changed))
            if status in (0, 1) and 'logic=' in said and not ERROR.search(told.pop(None)):
                return {name: (1, text + 'logic=not-proved\n') if REFUSED.search(text) else (0, text) for name, text in told.items()}
        return {name: self.check(name, texts) for name, texts in changed.items()}

    def told_apart(self, said, names):
        """What a run says of each crate, {crate: text}, each with its own paths; and under None what it says of none. Lines that begin with a blank go with the one before them."""
        told, owner = {name: '' for name in (*names, None)}, None
        for line in said.splitlines(keepends=True):
            if not line.startswith(' '):
                owner = next((name for name in names if self.crate(name) + '/' in line or line.startswith(f'fn {name}::')), None)
            told[owner] += line.replace(self.crate(owner) + '/', '') if owner else line
        return told

    def write(self, crate, texts):
        for path, text in texts.items():
            os.makedirs(os.path.dirname(os.path.join(crate, path)), exist_ok=True)
            with open(os.path.join(crate, path), 'w', encoding='utf-8') as out:
                out.write(text)

    def check_over(self, name, modules, seconds=None):
        status, said = self.run(name, self.below.get(name, []), modules, seconds=seconds)
        return status, said.replace(self.crate(name) + '/', '')

    def run(self, name, below, modules, libraries=(), seconds=None):
        """Runs the check of a crate, and of libraries beside it that are passed as they stand here, each with what it stands on and no more."""
        words = ['rt', 'check', self.crate(name), '--deps', ','.join(sorted({d for d in below if d not in self.below}))]
        for d in sorted({d for d in below if d in self.below}):
            words += ['--extern', f'{d}={self.rlib}/{d}.rlib']
        for library in libraries:
            words += ['--lib', f'{library}:{",".join(self.below[library])}={self.crate(library)}/src/lib.rt']
        words += ['-L', f'dependency={self.rlib}', '--incremental', modules]
        run = subprocess.Popen(words, stdout=subprocess.PIPE, stderr=subprocess.STDOUT, text=True, process_group=0)
        try:
            said, _ = run.communicate(timeout=seconds)
        except BaseException as stopped:
            os.killpg(run.pid, signal.SIGKILL)
            run.communicate()
            if isinstance(stopped, subprocess.TimeoutExpired):
                return None, ''
            raise
        return run.returncode, said


# What the check says where an edit names something that its file does not bring in. The edit is then no wrong program but a wrong text.
NAMELESS = ('is not in scope', 'that can be named from here', 'is not a constructor of', 'a constructor of `Prim.Id`, is checked against')
# What it says where a proof is written for code of another shape, or a statement of more or fewer parts: that is no fact about the edit.
UNFIT = ('Tie` has no `', 'Lts` has no `', 'has no field', 'components but its type has')
# Where a function has no proof file the checker answers what it can, and names what is left.
UNCLOSED = re.compile(r'^fn \w+::([\w:]+): no proof: .*`search` does not close ', re.M)
ERROR = re.compile(r'^((\S+?):\d+:\d+): error(?:\[[^\]]*\])?: (?:`([^`]+)`: )?(.*)$', re.M)
# What it says of a crate where not all of it is proved.
REFUSED = re.compile(r'^\S+?:\d+:\d+: error|^fn \w+::[\w:]+: (?!proved$)', re.M)


def kind_of(declaration, words):
    """What an error says of the edit: nothing where it only follows from another, else 'text', 'shape' or 'fact'."""
    if 'was not admitted' in words:
        return None
    if any(w in words for w in UNFIT):
        return 'shape'
    if declaration is None or declaration.startswith(('requires-', 'ensures-')) or any(w in words for w in NAMELESS):
        return 'text'  # an error in a clause itself: the contract is no statement
    of_a_list = declaration.endswith('-spec') or declaration.startswith(('Inv-', 'μ-'))
    return 'shape' if of_a_list and ('expected type' in words or 'the two types' in words) else 'fact'


def errors_in(said):
    """A check's errors: [(the function in whose own proof it stands, or none, path, line, kind)]."""
    return [(owners_of(path, '')[0][0], path, int(at.split(':')[-2]), kind_of(declaration, words)) for at, path, declaration, words in ERROR.findall(said)]
