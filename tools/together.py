"""Tries the edits of a crate together: one check for many, where a check of each alone would read the libraries as often.

Edits that change the bodies of different functions, on different lines, make a batch: one copy of the crate that has all of them.
An edit counts as refused if the prover has an error of its own in a function that this edit alone changes. The prover proves a
function from its body and the contracts of what it calls, and no edit of a batch changes anything but bodies, so no other edit can
have caused that error. Whatever else comes of a batch decides nothing: its edits are left to be tried alone, as the kit does it.

That a refusal is the body's and not the check's is controlled in the same check: an error in what no edit changes, or a function that
keeps its own body and proof and is not proved, is no result but a Fault.
"""
import contextlib
import copy
import functools
import glob
import importlib.machinery
import os
import re
import shutil
import subprocess
import tempfile
import types
from dataclasses import dataclass, field

# More make a batch so long that nothing is left to run beside its end.
MOST = 32
# how many functions of each kind, of those that no edit changes, keep their body and their proof in a check from nothing
CONTROLS = 2
# the files of a function's proof
PROOFS = {"Answers.antt", "Invariants.antt", "Proof.antt"}
ITEMS = {"fn", "impl", "trait", "struct", "enum", "union", "mod", "static", "const", "macro_rules"}
NOTE = re.compile(r"note: (?:\./)?(src/\S+?):(\d+):\d+: .* \(`[^`]+`\)")
ERROR = re.compile(r"(?:\./)?proofs/(\S+)/(?:Answers|Invariants|Proof)\.antt:\d+:\d+: error: ")
PLACE = re.compile(r"(?:note: )?(?:\./)?(src/\S+?|proofs/\S+?):(\d+):\d+: ")
# an error in any file that the check reads
ANY_ERROR = re.compile(r"(?:\./)?(?:proofs|specs|src)/\S+?:\d+:\d+: error")
VERDICT = re.compile(r"(\w+) (\S+::\S+): (.+)")
# said of a function whose goals are all proved
WELL = re.compile(r"proved|(?:not proved; |no proof: )it calls `.+`, which (?:is|are) not proved")
# the last line of a check that came to a verdict
VERDICTS = re.compile(r"^logic=\S.*\n?\Z", re.MULTILINE)
# the prover has a proof of its own there, and stops
TAKEN = re.compile(r"^(?:\./)?proofs/(\S+)/Proof\.antt: error\[reserved-name\]", re.MULTILINE)
# a proof file that names what an edit took away: little is known of the contract, so the edit is tried alone
NAMES = re.compile(r"has no field|is not in scope|has no `|was not admitted")
# what a derive writes that is proved as a function is (of a type that is Copy, Clone writes none)
DERIVES = re.compile(r"#\[derive\(([^)]*)\)\]\s*(?:(?:#\[[^\]]*\]|//[^\n]*)\s*)*(?:pub(?:\([a-z]+\))? )?(?:struct|enum) (\w+)")
DERIVED = {"Clone": "clone", "Debug": "fmt", "PartialEq": "eq"}
# the name of a type that is declared
TYPE = re.compile(r"^\s*(?:pub(?:\([a-z]+\))? )?(?:struct|enum|union) (\w+)", re.MULTILINE)
# what is taken of the kit's script: with another kit each edit is tried alone
USES = ("KIT", "LIMITS", "REFUSED", "checked", "linked", "read_edit", "unread")


class Fault(Exception):
    """A check that refuses what no edit changes, so that its errors say nothing of the edits."""


def suits(rt):
    return all(hasattr(rt, it) for it in USES) and hasattr(rt.rtlib, "STALE") and os.path.isfile(f"{rt.KIT}/bin/rt-plant-bodies")


@functools.lru_cache(maxsize=None)
def reader(kit):
    """The kit's own reader of sources, as a module."""
    module = types.ModuleType("rt_plant_bodies")
    module.__file__ = f"{kit}/bin/rt-plant-bodies"
    importlib.machinery.SourceFileLoader(module.__name__, module.__file__).exec_module(module)
    return module


class File:
    """The tokens and the functions of one source file."""

    def __init__(self, kit, folder, path):
        made, rows = reader(kit), {}

        class Reading(made.Source):
            def tokens(self, file):
                rows[file], data = super().tokens(file)
                return rows[file], data

        source = Reading(folder, follows=False)
        source.read(path)
        self.lines = source.data[path].split(b"\n")
        self.functions = [it for it in source.functions if it.has_body]
        # what is no function's body, less the word mut of a parameter that its body changes
        self.bodies, self.outside, left = [[] for _ in self.functions], [], [*enumerate(self.functions)]
        for _, start, _, _, word in rows[path]:
            while left and start >= left[0][1].end:
                left.pop(0)
            if left and left[0][1].opens < start:
                self.bodies[left[0][0]].append(word)
            elif word != "mut" or self.outside[-1:] not in (["("], [","]):
                self.outside.append(word)
        self.heads = [[word for _, start, _, _, word in rows[path] if it.first <= start < it.start] for it in self.functions]


def dereferenced(words):
    """A type's words without lifetimes and references, and what the prover's name for it has in place of these."""
    words, references = [it for it in words if not it.startswith("'")], ""
    while words[:1] == ["&"]:
        is_mut = words[1:2] == ["mut"]
        words, references = words[1 + is_mut :], references + ("RefMut" if is_mut else "Ref")
    return words, references


def argument(words):
    """The prover's name for an argument of a trait: the words of its path, each begun with a capital."""
    words, references = dereferenced(words)
    path = words[: words.index("<")] if "<" in words else words
    return references + "".join(it[0].upper() + it[1:] for it in path if it.isidentifier())


def module_of(path):
    folders = path.removeprefix("src/").removesuffix(".rt").split("/")
    return [] if folders in (["lib"], ["main"]) else folders


class Sources:
    """A crate's files and functions."""

    def __init__(self, kit, folder):
        self.kit, self.made = kit, reader(kit)
        source = self.made.Source(folder)
        source.read("src/main.rt" if os.path.isfile(f"{folder}/src/main.rt") else "src/lib.rt")
        self.data, self.functions = source.data, [it for it in source.functions if it.has_body]
        self.files = {path: File(kit, folder, path) for path in self.data}
        self.lines = {it: [self.data[it.file].count(b"\n", 0, at) + 1 for at in (it.first, it.end - 1)] for it in self.functions}
        self.homes = {name: module_of(path) for path, data in self.data.items() for name in TYPE.findall(data.decode())}

    def of_file(self, path):
        return [it for it in self.functions if it.file == path]

    def names(self, block):
        """The names of an impl's type and of its trait, as the prover has them: that of a reference begins with Ref or RefMut, and ends there
        if it is one to a parameter; that of a type of which the impl fixes an argument has the words of all its arguments after it, as
        Decoder+BitReader+R; and that of a trait has the names of its arguments, as FromAllocError, FromClapError, FromRefStr."""
        words, references = dereferenced(block.ty or [])
        (own, _, given), (of, _, arguments) = (self.made.named(it) for it in (words, block.trait or ["Self"]))
        own = "" if own in block.generics else own
        if any(it not in [[name] for name in block.generics] for it in given):
            own = "+".join([own, *(word for it in given for word in it if word.isidentifier())])
        return references + own, of + "".join(map(argument, arguments))

    def owner(self, function):
        """The name by which the prover has a method's impl, or nothing. A drop goes by its type's name alone."""
        own, of = self.names(function.block)
        return own and of and own + of * (function.in_trait and of != "Drop")

    def may_be(self, function, name, symbol):
        """Whether the prover's symbol may be this function's."""
        parts = symbol.split("::")
        if parts[-1] != function.name:
            return False
        if not function.block:
            return parts == [name, *function.module, function.name]
        own = self.owner(function)
        return bool(own) and (parts[-2] == own or parts[-2].startswith(f"{own}+") and not function.in_trait)

    def place(self, function):
        """Where below proofs/ the prover looks for this function's proof; where it looks elsewhere, it says that there is no such function,
        and goes on. None for a trait's own method."""
        if not function.block:
            return "/".join([*function.module, function.name])
        own = self.owner(function)
        if function.block.is_trait or not own:
            return None
        # (methods of no trait are with their type, wherever their impl is)
        module = function.module if function.in_trait else self.homes.get(own, function.module)
        return "/".join([*module, own, function.name])

    def derived(self):
        """Where below proofs/ the prover looks for the proofs of what the derives of this crate write."""
        for path, data in self.data.items():
            for derives, name in DERIVES.findall(data.decode()):
                traits = {it.strip() for it in derives.split(",")}
                for trait in traits & DERIVED.keys() - ({"Clone"} if "Copy" in traits else set()):
                    yield "/".join([*module_of(path), name + trait, DERIVED[trait]])

    def changed(self, path, text):
        """The functions whose bodies this text of the file changes, or None if it changes more than bodies, or a body that has items of
        its own, or that of a constant, a trait or a cycle of calls."""
        with tempfile.TemporaryDirectory(prefix="flac-edit-") as room:
            os.makedirs(os.path.dirname(f"{room}/{path}"))
            with open(f"{room}/{path}", "w", encoding="utf-8") as it:
                it.write(text)
            new = File(self.kit, room, path)
        old = self.files[path]
        if len(old.functions) != len(new.functions) or old.outside != new.outside:
            return None
        rows = zip(self.of_file(path), old.heads, old.bodies, new.bodies)
        found = [(it, {*head} & {"const"} or ITEMS & {*was, *now}) for it, head, was, now in rows if was != now]
        has_more = any(more or it.in_cycle or it.block and it.block.is_trait for it, more in found)
        return None if has_more else {it for it, _ in found}


@dataclass(eq=False)
class Edit:
    """What one edit does: the lines that it puts in place of others, and the functions whose bodies it changes."""

    file: str
    lines: dict = field(default_factory=dict)
    functions: set = field(default_factory=set)

    def disturbs(self, other):
        return bool(self.functions & other.functions or self.lines.keys() & other.lines.keys())


def understood(rt, sources, folder, file):
    """The edit, or None if it has to be tried alone."""
    texts, why = rt.read_edit(file, folder)
    edit = Edit(file)
    for path, text in (texts or {}).items():
        new = text.encode().split(b"\n")
        if path not in sources.files or len(new) != len(sources.files[path].lines):
            return None
        try:
            functions = sources.changed(path, text)
        except (ValueError, LookupError, subprocess.CalledProcessError):
            # (it does not parse)
            return None
        if functions is None:
            return None
        edit.functions |= functions
        # (elsewhere it changes at most the spaces that make an old text the only one)
        places = [at for it in functions for first, last in [sources.lines[it]] for at in range(first - 1, last)]
        edit.lines.update({(path, at): new[at] for at in places if new[at] != sources.files[path].lines[at]})
    return edit if edit.functions and not why else None


def all_understood(rt, crate, files):
    """The crate's sources, and those of the edits that can be tried beside others."""
    try:
        sources = Sources(rt.KIT, crate.folder)
        found = [understood(rt, sources, crate.folder, it) for it in files]
    except Exception as error:
        # (a source that the kit's reader does not read, say)
        print(f"note: the edits of {crate.name} are not tried together, but each alone: {error!r}"[:300], flush=True)
        return None, []
    return sources, [it for it in found if it]


def batched(edits, most=MOST):
    """Puts edits together that do not disturb each other, in as few batches as can be, about as many into each."""
    made = [[] for _ in range(0, len(edits), most)]
    for edit in edits:
        fits = [it for it in made if len(it) < most and not any(edit.disturbs(other) for other in it)]
        if not fits:
            made.append([])
        min(fits or made[-1:], key=len).append(edit)
    return made


def batches(rt, crate, files, least=2):
    """The edits of a crate to try together: lists of at least so many files. All others are tried alone."""
    _, edits = all_understood(rt, crate, files)
    return [[it.file for it in batch] for batch in batched(edits) if len(batch) >= least]


def applied(folder, edits):
    """The texts of the files of this copy of the crate that these edits change, with all of them."""
    lines = {}
    for edit in edits:
        for (path, at), text in edit.lines.items():
            if path not in lines:
                with open(f"{folder}/{path}", "rb") as it:
                    lines[path] = it.read().split(b"\n")
            lines[path][at] = text
    return {path: b"\n".join(it).decode() for path, it in lines.items()}


def verdicts(output):
    """By function: what the prover says of it, and the notes on its goals, which precede that line. A name that comes twice
    has none."""
    found, notes = {}, []
    for line in output.split("\n"):
        if NOTE.match(line):
            notes.append(line)
        told = VERDICT.fullmatch(line)
        if told:
            if told[1] == "fn":
                found[told[2]] = None if told[2] in found else (told[3], notes)
            notes = []
    return {symbol: it for symbol, it in found.items() if it}


def own_error(sources, name, function, said, errors):
    """The prover's first error that is in this function and nowhere else, or None."""
    symbols = [it for it in said if sources.may_be(function, name, it)]
    if len(symbols) != 1 or sum(sources.may_be(it, name, symbols[0]) for it in sources.functions) != 1:
        return None
    words, notes = said[symbols[0]]
    if not re.match(r"(not proved|no proof)\b", words):
        return None
    first, last = sources.lines[function]
    of_goals = [it for it in notes for at in [NOTE.match(it)] if at[1] == function.file and first <= int(at[2]) <= last]
    of_answers = [it for it in errors.get("/".join(symbols[0].split("::")[1:]), []) if not NAMES.search(it)]
    return next(iter(of_answers + of_goals), None)


def errors_of(lines):
    """The errors in the files of functions' proofs, by their folder."""
    errors = {}
    for line in lines:
        at = ERROR.match(line)
        if at:
            errors.setdefault(at[1], []).append(line)
    return errors


def stray(crate, sources, changed, whole, lines, said):
    """The first line of the check that refuses what is not changed, or says nothing of a function that was left whole; None if there is
    none."""
    places = [(it.file, *sources.lines[it]) for it in changed]

    def is_expected(line):
        of_proof, of_goal = ERROR.match(line), NOTE.match(line)
        if of_proof:
            symbol = "::".join([crate.name, *of_proof[1].split("/")])
            return any(sources.may_be(it, crate.name, symbol) for it in changed)
        if of_goal:
            return any(of_goal[1] == path and first <= int(of_goal[2]) <= last for path, first, last in places)
        return not ANY_ERROR.match(line)

    found = [it for it in lines if not is_expected(it)]
    for it in whole:
        symbol = "::".join([crate.name, *sources.place(it).split("/")])
        words, notes = said.get(symbol, ("no verdict", []))
        found += notes if WELL.fullmatch(words) else [f"fn {symbol}: {words}"]
    return next(iter(found), None)


def at_fault(sources, edits, lines):
    """The edits that a check without a verdict may have stopped at, by the places that these lines begin with."""
    found = []
    for at in filter(None, map(PLACE.match, lines)):
        for edit in edits:
            for it in edit.functions:
                first, last = sources.lines[it]
                in_code = at[1] == it.file and first <= int(at[2]) <= last
                if in_code or at[1].startswith("proofs/") and f"/{it.name}/" in at[1]:
                    found.append(edit)
    return found


def cited(crate, room):
    """The folders below proofs/ of whose modules a file of another folder imports one, be it written or made of the function's body: there a
    proof rests on that of another function, or on its body."""
    modules = "Answers|Invariants|Proof|Goals|Lts|Code|Given|Named|Tie|Layout|Symbol"
    found, of_a_proof = set(), re.compile(rf"\bRattle\.{crate.name}\.proofs\.([\w.+-]+)\.(?:{modules})\b")
    for folder, _, names in os.walk(f"{room}/proofs"):
        for name in names:
            with open(f"{folder}/{name}", encoding="utf-8") as it:
                places = {f"{room}/proofs/{place.replace('.', '/')}" for place in of_a_proof.findall(it.read())}
            found |= places - {folder}
    return found


def is_of_fixed(room, place):
    """Whether a function's proof is that of a method whose impl fixes an argument of its type: its folder has the words of all arguments after
    the type's name, as in Decoder+BitReader+R."""
    owner, _, name = place.rpartition("/")
    return bool(glob.glob(f"{room}/proofs/{owner}+*/{name}"))


def with_no_proof(folder):
    """Puts into the folder of a function's proof a file that has none."""
    os.makedirs(folder, exist_ok=True)
    with open(f"{folder}/Proof.antt", "w", encoding="utf-8") as it:
        it.write("-- not asked for here\n")


def has_own_use(function, text):
    """Whether more than the function's contract may matter to others: of a constant one its value, of a trait's own its proof in each type,
    and in a cycle of calls its proof."""
    return b"const" in text[function.first : function.opens].split() or function.in_cycle or function.block and function.block.is_trait


def emptied(text, functions):
    """The text with a body that is never reached for each of these functions, on as many lines."""
    parts, end = [], 0
    for it in sorted(functions, key=lambda it: it.opens):
        # (a function within another goes with it)
        if it.opens >= end:
            parts += [text[end : it.opens], b"{ unreachable!()", b"\n" * text.count(b"\n", it.opens, it.end), b"}"]
            end = it.end
    return b"".join([*parts, text[end:]])


def changed_by(edits):
    return {it for edit in edits for it in edit.functions}


def controls(crate, sources, changed):
    """The functions that no edit changes and that keep their body and their proof all the same: of those that call another of the crate, and
    of those that call none, the ones with the least to prove. Their goals have answers, so that the check reads a file for them as it
    does for the functions that are changed."""
    found, names = {True: [], False: []}, {it.name for it in sources.functions}
    for path, text in sources.data.items():
        for it, body in zip(sources.of_file(path), sources.files[path].bodies):
            place = sources.place(it)
            answers = f"{crate.folder}/proofs/{place}/Answers.antt"
            if it in changed or has_own_use(it, text) or not os.path.isfile(answers):
                continue
            symbol = "::".join([crate.name, *place.split("/")])
            if sum(sources.may_be(other, crate.name, symbol) for other in sources.functions) == 1:
                calls = any(word in names and after == "(" for word, after in zip(body, body[1:]))
                found[calls].append((os.path.getsize(answers) + it.end - it.first, symbol, it))
    return {it for kind in found.values() for _, _, it in sorted(kind, key=lambda row: row[:2])[:CONTROLS]}


@contextlib.contextmanager
def without_proofs(rt, crate, sources, edits, taken=(), bare=True):
    """A copy of the crate in which the functions that no edit changes have no proof, so that a check from nothing does not spend its time
    on them: in place of the files of their proofs, or where they have none, stands one with no proof, and they have no body if it is to be
    bare. The check says nothing of them, and of the others what it says with these: they are proved from contracts alone, but for those that
    cite the proof of another, which keeps it, and for the controls. Nothing is put into the places that are taken."""
    changed = changed_by(edits)
    changed |= controls(crate, sources, changed)

    def is_changed(symbol):
        return any(sources.may_be(it, crate.name, symbol) for it in changed)

    with tempfile.TemporaryDirectory(prefix="flac-bare-") as room:
        for part in rt.rtlib.PARTS:
            if os.path.isdir(f"{crate.folder}/{part}"):
                shutil.copytree(f"{crate.folder}/{part}", f"{room}/{part}")
        kept = cited(crate, room)
        for folder, _, names in [*os.walk(f"{room}/proofs")]:
            symbol = "::".join([crate.name, *os.path.relpath(folder, f"{room}/proofs").split(os.sep)])
            if folder not in kept and not PROOFS.isdisjoint(names) and "+" not in symbol and not is_changed(symbol):
                for name in PROOFS.intersection(names):
                    os.remove(f"{folder}/{name}")
                with_no_proof(folder)
        rest = {sources.place(it) for it in sources.functions if it not in changed}
        for place in {*rest, *sources.derived()} - {None, *taken}:
            symbol = "::".join([crate.name, *place.split("/")])
            if not (os.path.isdir(f"{room}/proofs/{place}") or is_of_fixed(room, place) or is_changed(symbol)):
                with_no_proof(f"{room}/proofs/{place}")
        for path, text in sources.data.items() if bare else ():
            rest = [it for it in sources.of_file(path) if it not in changed and not has_own_use(it, text)]
            rest = [it for it in rest for place in [sources.place(it)] if f"{room}/proofs/{place}" not in kept and not is_of_fixed(room, f"{place}")]
            with open(f"{room}/{path}", "wb") as it:
                it.write(emptied(text, rest))
        copied = copy.copy(crate)
        copied.folder = room
        yield copied


def checked(rt, crate, sources, edits, flags, folder):
    """Checks the crate with these edits over kept work, or from nothing over a copy that has little more than what they change. Returns what
    the check printed, and the texts."""
    taken, bare = set(), not folder
    while True:
        with contextlib.nullcontext(crate) if folder else without_proofs(rt, crate, sources, edits, taken, bare) as copied:
            texts = applied(copied.folder, edits)
            ran = rt.checked(copied, texts, flags, folder)
        found = set() if folder else {*TAKEN.findall(ran.stdout)}
        if taken.issuperset(found) and (ran.returncode in (0, 1) and VERDICTS.search(ran.stdout) or not bare):
            return ran, texts
        # (where an empty body is no body of that function, each has its own)
        bare = bare and not taken.issuperset(found)
        taken |= found


def refused(rt, crate, sources, edits, flags, kept):
    """Tries these edits at once, and returns what is to be said of each that the prover refuses, by its file. kept() gives a new copy of
    the crate's kept work, for one check, or None: then one edit, too, takes less so than alone."""
    with kept() as folder:
        # (over kept work one is as soon tried alone)
        if len(edits) < (2 if folder else 1):
            return {}
        ran, texts = checked(rt, crate, sources, edits, flags, folder)
    lines = ran.stdout.rstrip("\n").split("\n")
    unread = [it for it in lines if rt.unread(it, texts)]
    if ran.returncode == 0:
        # (not one of them was refused)
        return {}
    if ran.returncode != 1 or not lines[-1].startswith("logic=not-proved") or unread or rt.rtlib.STALE.search(ran.stdout):
        limits = [it for it in lines if rt.LIMITS.search(it)]
        found = at_fault(sources, edits, unread or limits or [it for it in lines if "error" in it])
        rest = [it for it in edits if it not in found and len(edits) > 1]
        halves = [rest] if found or len(edits) == 1 else [edits[: len(edits) // 2], edits[len(edits) // 2 :]]
        return {file: it for half in halves for file, it in refused(rt, crate, sources, half, flags, kept).items()}
    said, errors, told = verdicts(ran.stdout), errors_of(lines), {}
    changed = changed_by(edits)
    # (over kept work all that is not changed is proved already)
    other = stray(crate, sources, changed, set() if folder else controls(crate, sources, changed), lines, said)
    if other:
        raise Fault(f"the check of {len(edits)} bodies of {crate.name} refuses what none of them changes: {other[:200]}")
    for edit in edits:
        found = [own_error(sources, crate.name, it, said, errors) for it in sorted(edit.functions, key=lambda it: it.first)]
        first = next((it for it in found if it), None)
        if first:
            label = f"must-fail {crate.name}/{os.path.basename(edit.file)}"
            told[edit.file] = f"{label}: refused, as it must be (tried beside {len(edits) - 1} others): {first[:160]}"
    return told


def tried(rt, crate, files, flags, kept, most=MOST):
    """Tries those of these edits together that can be, as they stand now, at most so many in one check. Returns what is to be said of each
    that is refused, by its file: every other is to be tried alone."""
    sources, edits = all_understood(rt, crate, files)
    told = {}
    for batch in batched(edits, most):
        told.update(refused(rt, crate, sources, batch, flags, kept))
    return told
