"""Turned bodies, and how they are tried together.

A function is proved over the contracts of what it calls. So one check of a crate in which many bodies are turned refuses each of
them at a goal of its own function. A body is tried alone if it turns a definition, if another one turns the same function, or if
the check says nothing of its function."""
import glob
import os
import pathlib
import re

from toolchain import is_refusal, load

ITEM = re.compile(r"(?m)^( *)(?:pub(?:\(crate\))? )?(?:final )?(?:const )?(?:unsafe )?fn (\w+)|^impl\b(.*)$|^\}")
# What a check says of each function, and what it says of one that is refused at a goal of its own, if all that it calls is proved.
SAID = re.compile(r"^fn (\S+): (.*)")
OWN = re.compile(r"not proved$|no proof: expected")
# The goals that a check leaves open: in the file of answers of a function, or at a line of its source.
# (what a record lacks may stand in the line after its name)
ANSWER = re.compile(r"(?m)^\./proofs/(\S+)/\w+\.antt:\d+:\d+: error: (.*(?:\n +has no .*)?)")
LINE = re.compile(r"(?m)^note: (src/\S+\.rt):(\d+):\d+: it is not proved that")
# An answer that names what the body took away says nothing of the contract.
LOST = re.compile(r"has no field|is not in scope|has no `|was not admitted")
SUBJECT = load(pathlib.Path(__file__).with_name("edits"), "edits").subject


def edits_of(crate):
    """Returns the turned bodies of a crate, or of a crate's folder, that the gate tries."""
    return sorted(glob.glob(f"{getattr(crate, 'folder', crate)}/turned/*.edit"))


def more_of(crate):
    """Returns those that the gate leaves out: each further body of a function that has one, and turned definitions of laws. Each of them
    takes a check of its own."""
    return sorted(glob.glob(f"{crate.folder}/turned/more/*.edit"))


def read(edit):
    """Returns the file that an edit is of, and its pairs of an old and a new text."""
    text = pathlib.Path(edit).read_text(encoding="utf-8")
    return re.search(r"(?m)^file: (\S+)", text)[1], re.findall(r"(?m)^old: (.*)\nnew: ?(.*)$", text)


def turned_function(text, at):
    """Returns the type and the name of the function that a place of a source lies in, or None."""
    owner = name = None
    for item in ITEM.finditer(text, 0, at):
        if item[3] is not None:
            owner, name = SUBJECT(f"impl{item[3]}")[0], None
        elif item[2]:
            owner, name = owner if item[1] else None, item[2]
        else:
            owner = name = None
    return name and (owner or "", name)


def together(crate, edits):
    """Returns the texts of a crate with as many edits as go together, these edits with the function of each, and the others."""
    texts, chosen, alone = {}, {}, []
    for edit in edits:
        path, changes = read(edit)
        was = pathlib.Path(f"{crate.folder}/{path}").read_text(encoding="utf-8")
        now = texts.get(path, was)
        spots = {turned_function(was, was.find(old) + len(old)) for old, _ in changes}
        key = (path, *(spots.pop() or ("", "")))
        fits = path.startswith("src/") and not spots and key[2] and key not in chosen.values()
        if not fits or any(now.count(old) != 1 for old, _ in changes):
            alone.append(edit)
            continue
        for old, new in changes:
            now = now.replace(old, new)
        texts[path], chosen[edit] = now, key
    return texts, chosen, alone


def is_at(crate, key, full):
    """Returns whether a function that a check names is the one of the key. It stands in the module of the file or in that of its type."""
    path, owner, name = key
    module = [crate.name, *path.removeprefix("src/").removesuffix(".rt").split("/")]
    *within, last = full.split("::")
    return last == name and (within[-1].startswith(owner) if owner else within == [it for it in module if it != "lib"])


def open_goals(crate, texts, said):
    """Returns the functions with a goal of their own that a check of these texts leaves open, by their paths or as `turned_function` has
    them with their file."""
    paths = {"::".join([crate.name, *found[1].split("/")]) for found in ANSWER.finditer(said) if not LOST.search(found[2])}
    lines = {(found[1], int(found[2])) for found in LINE.finditer(said)}
    keys = set()
    for path, line in lines:
        text = texts.get(path) or pathlib.Path(f"{crate.folder}/{path}").read_text(encoding="utf-8")
        whole = text.splitlines(True)
        # (a goal at an attribute is of the function below it)
        while whole[line - 1].lstrip().startswith("#["):
            line += 1
        keys.add((path, *(turned_function(text, sum(map(len, whole[:line]))) or ("", ""))))
    return paths, keys


def law_of(crate, edit):
    """Returns the law whose statement, or a definition of it, an edit turns: the name of the edit has it."""
    module, *rest = os.path.basename(edit).removesuffix(".edit").split(".")[:-1]
    return "::".join([crate.name, *module.split("-"), *rest])


class Trial:
    """The turned bodies of one crate, tried in rounds. The first round checks the crate with as many of them as go together, and keeps
    what is proved. Each later one checks the functions alone that are left, over what is kept."""

    def __init__(self, rt, crate, kept, jobs):
        self.rt, self.crate, self.kept, self.jobs, self.functions, self.refused = rt, crate, kept, ["--jobs", str(jobs)], [], set()

    def check(self, texts, only=()):
        """Checks the crate with these texts, and returns what was said of each function."""
        flags = [*self.jobs, *(word for it in only for word in ("--only", it.split("::", 1)[1]))]
        self.said = self.rt.checked(self.crate, texts, flags, self.kept).stdout
        return {found[1]: found[2] for found in map(SAID.match, self.said.splitlines()) if found}

    def round(self, edits):
        """Tries edits in one check, the first time of the whole crate, and then of their functions alone. Returns those that it does not
        refuse at a goal of their own."""
        texts, chosen, rest = together(self.crate, edits)
        paths = [it for it in self.functions if any(is_at(self.crate, key, it) for key in chosen.values())]
        if not chosen or self.functions and not paths:
            return edits
        said = self.check(texts, paths)
        if not said and len(chosen) > 1:
            return self.unread(chosen) + rest
        self.functions = self.functions or [*said]
        return rest + self.judged(chosen, texts, said)

    def judged(self, chosen, texts, said):
        """Notes the edits whose functions are refused at a goal of their own, and returns the others. Prints those that no goal is named of,
        but the function's line alone: what refuses them may be no clause."""
        paths, keys = open_goals(self.crate, texts, self.said)
        at_goals = {edit for edit, key in chosen.items() if key in keys or any(is_at(self.crate, key, it) for it in paths)}
        lines = {it for it, what in said.items() if OWN.match(what)}
        by_line = {edit for edit, key in chosen.items() if any(is_at(self.crate, key, it) for it in lines)} - at_goals
        if by_line:
            print(f"{self.crate.name}: refused, and no goal is named: {' '.join(sorted(map(os.path.basename, by_line)))}", flush=True)
        self.refused |= at_goals | by_line
        return [edit for edit in chosen if edit not in self.refused]

    def unread(self, chosen):
        """Finds the edits that do not read beside the others, the one that is named or the one in either half, and tries the rest."""
        named = re.findall(r"error: `(\S+)`", self.said)
        bad = [edit for edit, key in chosen.items() if any(is_at(self.crate, key, it) for it in named)]
        good = [edit for edit in chosen if edit not in bad]
        print(f"{self.crate.name}: {' '.join(map(os.path.basename, bad)) or 'a turned body'} does not read beside the others: give it another form", flush=True)
        halves = [good] if bad else [good[: len(good) // 2], good[len(good) // 2 :]]
        return bad + [edit for half in halves if half for edit in self.round(half)]

    def law(self, edit):
        """Tries an edit of a definition in a check of the law that it breaks. Returns whether that is refused at a goal of its own."""
        texts, _ = self.rt.read_edit(edit, self.crate.folder)
        law = law_of(self.crate, edit)
        return OWN.match(self.check(texts or {}, [law]).get(law, "")) is not None

    def alone(self, edit):
        """Tries one edit as `rt must-fail` does. Prints what was said unless it is refused for more than a name that it takes away."""
        kind, text = self.rt.must_fail(self.crate, edit, self.jobs, self.kept)
        is_refused = is_refusal(self.rt, kind) and "only because" not in text
        print("" if is_refused else text, end="" if is_refused else "\n", flush=True)
        return is_refused


def try_all(rt, crate, edits, kept, jobs, alone=None):
    """Tries a crate's turned bodies over a folder of kept work, and returns each with whether it was refused. Those of `alone`, or else
    all, are tried alone if they are not refused together."""
    trial = Trial(rt, crate, kept, jobs)
    bodies = [it for it in edits if read(it)[0].startswith("src/")]
    before, left, rounds = [], bodies, 0
    while left and len(left) != len(before):
        before, left, rounds = left, trial.round(left), rounds + 1
    trial.refused |= {it for it in edits if it not in bodies and trial.law(it)}
    by_itself = [it for it in edits if it not in trial.refused]
    print(f"{crate.name}: {len(edits) - len(by_itself)} turned bodies refused in {rounds} checks together, {len(by_itself)} to be tried alone: {' '.join(map(os.path.basename, by_itself))}", flush=True)
    may_alone = edits if alone is None else alone
    return [(it, it in trial.refused or it in may_alone and trial.alone(it)) for it in edits]
