"""How an edit of a crate's must-fail/ is made and tried: the prover must refuse it, over the libraries that `rt ci` built.

`rt must-fail` checks a crate once for each of its edits. Here a check takes many edits at once, and of the crate it proves
the edited functions alone; the proofs of those that no edit changes are left open. Where several edits change one function,
each but the first is made in a copy of it, under another name and with copies of its proof files, beside it; and so is each of
a function that is in a cycle of calls, whose copy is in none. (A method of a trait has no copies: its further edits wait for
the next check.) An edit is refused where the prover refuses a goal of the very function that it is made in: what a function has
to prove speaks of its own body and of the contracts of what it calls, so the other edits, which change bodies alone, have no
part in it. (Of a function whose own goals are proved, and that lacks a proof for what it calls alone, a check says 'no proof',
and not 'not proved'.) An edit whose function is not refused so is tried by itself. One that is not refused then, and one that changes
no single function's body, is tried over the whole crate, as `rt must-fail` does.
"""
import os
import re
import shutil
import subprocess
import tempfile
from pathlib import Path
from typing import NamedTuple

TOP = Path(__file__).resolve().parent.parent
PARTS = ("src", "specs", "proofs")
FUNCTION = re.compile(r"(?P<indent> {0,4})(?:pub(?:\([a-z]+\))? )?(?:const )?fn (?P<name>\w+)")
TYPE = re.compile(r"(?:pub(?:\([a-z]+\))? )?(?:struct|enum) (?P<name>\w+)")
IMPL = re.compile(r"impl(?:<.*?>)? (?P<head>.*?)(?: where .*)?(?: \{)?$")
VERDICT = re.compile(r"^fn (?P<function>\S+): (?P<words>.*)$")
# What the prover says where it can't read an edited text; then no contract was tried.
UNREAD = re.compile(r"is not in scope|has no field|is no name|operand is missing|expected the end|cannot continue")


class BadEdit(Exception):
    """An edit that cannot be applied."""


def kit():
    """The folder of the toolchain."""
    return Path(subprocess.run(["rt", "doc"], capture_output=True, text=True, check=True).stdout.strip()).parent


KIT = kit()


def listed():
    """Each crate of crates.txt with the libraries that it names."""
    crates = {}
    for line in (TOP / "crates.txt").read_text(encoding="utf-8").splitlines():
        name, colon, libraries = line.partition(":")
        if colon and not line.startswith("#"):
            crates[name.split()[0]] = libraries.split()
    return crates


CRATES = listed()


def below(crate):
    """The crates of this repository that a crate uses, directly or not."""
    found = []
    for name in CRATES[crate]:
        if name in CRATES:
            found += [it for it in [*below(name), name] if it not in found]
    return found


def library(crate):
    return TOP / "crates" / crate / "out/rlib" / f"{crate}.rlib"


def words_of(crate):
    """The words of a check of a crate, over the libraries that are built."""
    words = [KIT / "bin/rattle", "check", "--crate-name", crate, "src/lib.rt", "-L", f"dependency={KIT}/rlibs"]
    for name in ["std", *CRATES[crate]]:
        words += ["--extern", f"{name}={library(name) if name in CRATES else f'{KIT}/rlibs/{name}.rlib'}"]
    for name in below(crate):
        words += ["-L", f"dependency={library(name).parent}"]
    words += ["--antt-project", f"{KIT}/rattle/logic/antt-project.json", "--logic-built", KIT / "logic_built"]
    return words + ["--jobs", "1"]


def module_of(path):
    """The module of a file of src/, as a check names it."""
    parts = list(Path(path).with_suffix("").parts[1:])
    return "::".join(it for it in parts if it not in ("lib", "mod"))


def type_of(head):
    """What a check calls an impl: its type, and after it the trait with its parameters, if it is of one."""
    trait, separator, owner = head.rpartition(" for ")
    owner = re.findall(r"\w+", re.sub(r"<.*", "", owner))[-1:]
    return "".join(owner + re.findall(r"\w+", re.sub(r"\w+::", "", trait)) if separator else owner)


def homes_of(src):
    """The modules of the types of a folder src/, by their names."""
    homes = {}
    for file in sorted(src.rglob("*.rt")):
        for line in file.read_text(encoding="utf-8").split("\n"):
            match = TYPE.match(line)
            if match:
                homes.setdefault(match["name"], []).append(module_of(file.relative_to(src.parent)))
    return homes


class Function(NamedTuple):
    """A function of a crate: its module, or of a method of no trait that of its type, the impl that it is in, its name, its cycle, and
    whether it is a method of a trait."""

    module: str
    owner: str
    name: str
    cycle: str
    is_of_trait: bool

    @property
    def parts(self):
        """Its path below its crate."""
        return [it for it in (*self.module.split("::"), self.owner, self.name) if it]


def calls_itself(function, item):
    """Whether a function that names no cycle is one by itself."""
    through = rf"\b(?:self\.|Self::|{function.owner}::)" if function.owner else r"(?<![\w.:])(?<!fn )"
    return bool(re.search(rf"{through}{function.name}\(", item))


def functions_of(path, text, homes):
    """The functions of a formatted text, each with its first place and its last, its docs and attributes among it. `homes` has the modules
    of the crate's types."""
    module = home = module_of(path)
    owner, of_trait, start, begin, found, attributes = "", False, 0, 0, None, ""
    for line in text.split("\n"):
        match = FUNCTION.match(line)
        if line.startswith("impl"):
            head = IMPL.match(line)["head"]
            owner, of_trait = type_of(head), " for " in head
            modules = homes.get(owner, [module])
            home = module if of_trait or module in modules else modules[0]
        if match:
            indent = match["indent"]
            cycle = re.search(r"#\[cycle\((\w+)\)\]", attributes)
            found = Function(home, owner if indent else "", match["name"], cycle[1] if cycle else "", bool(indent) and of_trait)
            begin = start - len(attributes)
        elif found and line == indent + "}":
            if not found.cycle and calls_itself(found, text[begin:start]):
                found = found._replace(cycle=found.name)
            yield found, begin, start + len(line)
            found = None
        attributes = attributes + line + "\n" if line.lstrip().startswith(("//", "#[")) else ""
        start += len(line) + 1
        if line == "}":
            owner, of_trait, home = "", False, module


class Edit:
    """A must-fail edit: the pairs of texts that it changes, and the function that it changes, if it is one alone."""

    def __init__(self, crate, file):
        self.crate, self.file = crate, file
        self.pairs = list(self.read())
        changed = {self.function_at(path, old) for path, old, _ in self.pairs}
        # The function that it changes, if it is one alone.
        self.unit = changed.pop() if len(changed) == 1 else None
        # What is put after the function's name if the edit is made in a copy of it.
        self.suffix = ""

    def __str__(self):
        return f"{self.crate}/{self.file.stem}"

    def read(self):
        path, old = None, None
        for line in self.file.read_text(encoding="utf-8").split("\n"):
            key, _, text = line.partition(": ")
            if key == "file":
                path = text.strip()
            elif key == "old":
                old = text
            elif line.startswith("new:"):
                if path is None or old is None:
                    raise BadEdit(f"{self}: a new text with no file or no old text before it")
                yield path, old, text
                old = None

    def function_at(self, path, old):
        folder = TOP / "crates" / self.crate
        text = (folder / path).read_text(encoding="utf-8")
        at = text.find(old)
        return next((it for it, begin, end in functions_of(path, text, homes_of(folder / "src")) if begin <= at < end), None)

    @property
    def path(self):
        """The function that it is made in, below its crate, by the name that a check takes."""
        return "::".join(self.unit.parts) + self.suffix

    def is_own(self, line):
        """Whether a line of a check tells an error in what is to be proved of the function, or of the cycle that it is in."""
        folder = rf"(.*/)?\+{self.unit.cycle}" if self.unit.cycle and not self.suffix else self.path.replace("::", "/")
        is_told = re.match(rf"(\./)?proofs/{folder}/.*: error: ", line)
        return bool(is_told) and "was not admitted" not in line

    def changes(self, folder):
        """Each file that it changes, with where in it which text begins, and what takes its place."""
        places = []
        for path, old, new in self.pairs:
            file = folder / path
            text = file.read_text(encoding="utf-8")
            if text.count(old) != 1:
                raise BadEdit(f"{self}: the old text is in {path} {text.count(old)} times, and not once")
            places.append((file, text.find(old), old, new))
        return [self.copy(places)] if self.suffix else places

    def copy(self, places):
        """The changed copy of the function, where it is put."""
        file, at, _, _ = places[0]
        text, name = file.read_text(encoding="utf-8"), self.unit.name
        begin, end = next(where for _, *where in functions_of("src/lib.rt", text, {}) if where[0] <= at < where[1])
        item = made(text[begin:end], [(at - begin, old, new) for _, at, old, new in places])
        item = re.sub(r"(?m)^ *#\[cycle\(\w+\)\]\n", "", item)
        return file, end, "", "\n\n" + re.sub(rf"\bfn {name}\b", f"fn {name}{self.suffix}", item, count=1)

    def copy_proofs(self, folder):
        """Copies the proof files of the function and of its closures for its copy."""
        *above, name = self.unit.parts
        proofs = folder / "proofs"
        sources = {proofs.joinpath(*above, name): [*above, name], proofs.joinpath(*above, "fn", name): [*above, "fn", name]}
        if self.unit.cycle:
            sources |= {place: [*above, name] for place in proofs.rglob(f"+{self.unit.cycle}")}
        for source, parts in sources.items():
            to = proofs.joinpath(*parts[:-1], name + self.suffix)
            for file in source.rglob("*.antt") if source.is_dir() else ():
                text = file.read_text(encoding="utf-8")
                if source.name.startswith("+"):
                    text = out_of_cycle(text, name)
                at = re.escape(".".join(["proofs", *source.relative_to(proofs).parts]))
                text = re.sub(rf"\b{at}\b", ".".join(["proofs", *to.relative_to(proofs).parts]), text)
                (to / file.relative_to(source)).parent.mkdir(parents=True, exist_ok=True)
                (to / file.relative_to(source)).write_text(text, encoding="utf-8")


def out_of_cycle(text, name):
    """Of a proof file of a cycle what is of one of its functions, as that function would have it alone: the names of its goals without
    its own in front, and without the theorem of the cycle."""
    head, *blocks = re.split(r"\n\n+", text.rstrip("\n"))
    of_function = rf"(?m)(?:^|(?<=^pub )|(?<=^abbrev pub )|(?<=goal\.))(invariant-|decreases-|iterator-|)(?:\w+::)?{name}-"
    kept = []
    for block in blocks:
        is_of_one = re.search(r"(?m)^(abbrev )?pub ", block)
        if is_of_one and not re.search(of_function, block):
            continue
        block = re.sub(of_function, r"\1", block)
        kept.append(re.sub(r"(?m)^([\w:-]+) t c\b", r"\1 c", block))
    return "\n\n".join([head, *kept]) + "\n"


def made(text, changes):
    """The text with all changes made, each where its old text is before any of them is made."""
    for at, old, new in sorted(changes, reverse=True):
        text = text[:at] + new + text[at + len(old):]
    return text


def apply(edits, folder):
    """Makes all changes of some edits."""
    changes = {}
    for edit in edits:
        for file, *change in edit.changes(folder):
            changes.setdefault(file, []).append(change)
        if edit.suffix:
            edit.copy_proofs(folder)
    for file, here in changes.items():
        file.write_text(made(file.read_text(encoding="utf-8"), here), encoding="utf-8")


HOLE = """use Rattle.{module} as stated

pub {name}_spec : {{M : Type 1}} → stated.statement M
{name}_spec = ?
"""


def leave_open(crate, edits, folder):
    """Puts a hole in place of each proof that no edit has a part in: of the functions that none changes, nor one of their cycle.
    (The methods of traits keep theirs.)"""
    edited = {edit.path for edit in edits}
    cycles = {edit.unit.cycle for edit in edits if not edit.suffix}
    proofs = folder / "proofs"
    places, homes = {}, homes_of(folder / "src")
    for file in sorted((folder / "src").rglob("*.rt")):
        for function, *_ in functions_of(file.relative_to(folder), file.read_text(encoding="utf-8"), homes):
            if function.cycle and function.cycle not in cycles:
                for place in proofs.rglob(f"+{function.cycle}"):
                    places[place] = f"+{function.cycle}", ""
            elif not function.cycle and not function.is_of_trait and "::".join(function.parts) not in edited:
                places[proofs.joinpath(*function.parts)] = function.name, ".Statement"
    for place, (name, statement) in places.items():
        for file in ("Answers.antt", "Invariants.antt"):
            (place / file).unlink(missing_ok=True)
        place.mkdir(parents=True, exist_ok=True)
        module = ".".join([crate, *place.relative_to(folder).parts]) + statement
        (place / "Proof.antt").write_text(HOLE.format(module=module, name=name), encoding="utf-8")


def batch_of(edits):
    """As many of some edits as a check can take: of each function one, and the others in copies of it where it can have them. What
    is changed in a cycle is changed in copies alone, so that the cycle need not be proved."""
    of_function = {}
    for edit in edits:
        here = of_function.setdefault(edit.unit, [])
        if edit.unit.is_of_trait and here:
            continue
        is_copy = here or edit.unit.cycle and not edit.unit.is_of_trait
        edit.suffix = f"_copy_{len(here) + 1}" if is_copy else ""
        here.append(edit)
    return [edit for here in of_function.values() for edit in here]


class Checked:
    """What a check said: its status, its lines, and of each function what became of it."""

    def __init__(self, crate, edits, paths, kept):
        with tempfile.TemporaryDirectory(prefix="wrong-bodies-") as room:
            for part in PARTS:
                if (TOP / "crates" / crate / part).is_dir():
                    shutil.copytree(TOP / "crates" / crate / part, Path(room) / part)
            apply(edits, Path(room))
            words = words_of(crate) + ["--incremental", kept]
            if paths:
                leave_open(crate, edits, Path(room))
                words.append("--allow-holes")
            for path in paths:
                words += ["--only", path]
            how = {"stdin": subprocess.DEVNULL, "stdout": subprocess.PIPE, "stderr": subprocess.STDOUT, "errors": "replace"}
            ran = subprocess.Popen(["nice", "-n", "19", *words], cwd=room, **how)
            self.lines = ran.stdout.read().rstrip("\n").split("\n")
            _, status, used = os.wait4(ran.pid, 0)
        self.status, self.seconds = os.waitstatus_to_exitcode(status), used.ru_utime + used.ru_stime
        verdicts = [match for match in map(VERDICT.match, self.lines) if match]
        self.functions = {it["function"].split("::", 1)[-1]: it["words"] for it in verdicts}

    def is_unread(self):
        """Whether the prover could not read a text of src/ or specs/, where an edit that makes a statement false reads well."""
        for line in self.lines:
            match = re.match(r"(?:\./)?(?P<file>\S+?):\d+:\d+: error: (?P<goal>`[^`]*`: )?(?P<words>.*)", line)
            if match and match["file"].startswith(("src/", "specs/")):
                if not match["goal"] or UNREAD.search(re.sub(r"`[^`]*`", "", match["words"])):
                    return True
        return False

    def refuses(self, edit, by_itself):
        """Whether it refuses a goal of the function that an edit is made in, which has an answer or is searched for. What a check
        says of a cycle shows which of its functions is refused only if one alone is changed."""
        words = self.functions.get(edit.path, "")
        if edit.unit.cycle and not edit.suffix and not by_itself:
            return False
        if words.startswith("no proof: expected answers in "):
            return "`search` did not prove " in words
        return words == "not proved" or words.startswith("not proved;") and any(edit.is_own(line) for line in self.lines)


def told(checked):
    """The first lines of what a check said, for a person."""
    return " / ".join(line[:160] for line in checked.lines[:4])


class Trial:
    """The edits of a crate, and what became of each: None where it was refused, else why it was not. `turn` waits until one more check may
    begin."""

    def __init__(self, crate, folder, turn=lambda: None):
        self.crate, self.turn, self.results = crate, turn, {}
        self.edits, self.checks, self.seconds = [], 0, 0.0
        for file in sorted((folder / crate / "must-fail").glob("*")):
            try:
                if file.suffix != ".edit":
                    raise BadEdit("the name of an edit ends in .edit")
                edit = Edit(crate, file)
                with tempfile.TemporaryDirectory() as room:
                    shutil.copytree(TOP / "crates" / crate / "src", Path(room) / "src")
                    apply([edit], Path(room))
                self.edits.append(edit)
            except (BadEdit, OSError, ValueError) as why:
                self.results[f"{crate}/{file.stem}"] = str(why)

    def run(self):
        with tempfile.TemporaryDirectory(prefix="wrong-bodies-kept-") as kept:
            left = [edit for edit in self.edits if edit.unit]
            alone = [edit for edit in self.edits if not edit.unit]
            while left:
                batch = batch_of(left)
                left = [edit for edit in left if edit not in batch]
                alone += self.never_refused(batch, kept)
            for edit in alone:
                self.results[str(edit)] = self.alone(edit, kept)
        self.tell(f"{len(self.edits)} edits in {self.checks} checks")
        return self.results

    def tell(self, what):
        print(f"{self.crate}: {what}, {self.seconds:.0f} seconds of processor time", flush=True)

    def run_unedited(self):
        """Why a copy of a function without its edit is not proved, or None, for each copy."""
        copies = [edit for edit in batch_of([edit for edit in self.edits if edit.unit]) if edit.suffix]
        for edit in copies:
            edit.pairs = [(path, old, old) for path, old, _ in edit.pairs]
        with tempfile.TemporaryDirectory(prefix="wrong-bodies-kept-") as kept:
            functions = self.check(copies, [edit.path for edit in copies], kept).functions if copies else {}
        for edit in copies:
            words = functions.get(edit.path, "it is not told")
            is_proved = words.startswith(("proved", "no holes", "depends on a hole"))
            self.results[str(edit)] = None if is_proved else f"its copy is not proved without it: {words[:160]}"
        self.tell(f"{len(copies)} copies without their edits")
        return self.results

    def not_refused(self, batch, kept):
        """Those of a batch of edits, one of a function or of a copy each, that a check of all of them does not refuse."""
        checked = self.check(batch, [edit.path for edit in batch], kept)
        is_judged = checked.status == 1 and not checked.is_unread()
        refused = [edit for edit in batch if is_judged and checked.refuses(edit, len(batch) == 1)]
        self.results |= {str(edit): None for edit in refused}
        return [edit for edit in batch if edit not in refused]

    def never_refused(self, batch, kept):
        """Those of a batch that are not refused together, and then not by themselves. Of a batch of which none is refused the prover may be
        unable to read one text: its halves are tried."""
        left = self.not_refused(batch, kept)
        if len(batch) == 1:
            return left
        half = len(left) // 2
        parts = [left[:half], left[half:]] if left == batch else [[edit] for edit in left]
        for part in parts:
            if len(part) == 1:
                part[0].suffix = ""
        return [edit for part in parts for edit in self.never_refused(part, kept)]

    def alone(self, edit, kept):
        """Why the crate with this edit alone is not refused, or None."""
        edit.suffix = ""
        checked = self.check([edit], [], kept)
        if checked.is_unread():
            return f"the prover cannot read the edited text: {told(checked)}"
        if checked.status == 1 and checked.lines[-1].startswith("logic=not-proved"):
            return None
        return f"the crate is still proved: {told(checked)}" if checked.status == 0 else f"it did not reach the prover: {told(checked)}"

    def check(self, edits, paths, kept):
        self.turn()
        checked = Checked(self.crate, edits, paths, kept)
        self.checks, self.seconds = self.checks + 1, self.seconds + checked.seconds
        return checked
