"""What this repository asks of the toolchain's command `rt` beyond the calls that its guide documents. No other file does.

`rt` is a script. It is read as a module here, so that many turned bodies can be tried in one check, beside the proofs of a run of
the gate, over the same libraries. This was made for the versions that `MADE_FOR` names. `is_known` says whether this is one of them;
with another one, the gate tries each body alone, by documented calls."""
import functools
import importlib.machinery
import importlib.util
import json
import os
import re
import resource
import shutil
import subprocess
import sys
import tempfile
import threading
import time

# The later one keeps what a run proved, and a later run on that machine proves only what changed. Edits are tried by each run.
MADE_FOR = ["rattle-kit-13b logic dac8208d650f15bf", "rattle-kit-13f logic dac8208d650f15bf"]
CLOSING = re.compile(r"(\d+) passed, (\d+) failed")
# A line of tests takes about as long as five of a library; a program, to be compiled twice, about as long as this many lines.
TESTS_LINES, PROGRAM_LINES = 5, 3000


def version():
    """Returns the text by which the toolchain names itself."""
    return subprocess.run(["rt", "version"], stdout=subprocess.PIPE, text=True, check=True).stdout.strip()


def is_known():
    """Returns whether the toolchain is a version that this file was made for."""
    return version() in MADE_FOR


def load(path, name):
    """Returns a script as a module."""
    sys.dont_write_bytecode = True
    loader = importlib.machinery.SourceFileLoader(name, str(path))
    made = importlib.util.module_from_spec(importlib.util.spec_from_loader(name, loader))
    loader.exec_module(made)
    return made


def script():
    """Returns `rt` as a module."""
    return load(os.path.realpath(shutil.which("rt")), "rt")


def remember_sums(rt):
    """Has the sum of each crate made once. It is made of those below it, over each path to them, which takes minutes of a run."""
    rt.rtlib.Crate.stamp = functools.cache(rt.rtlib.Crate.stamp)


def hold_own_folder(rt):
    """Has a command hold its crate's folder alone, and not those of the crates below, which stand by now. So several run in one clone."""
    hold = rt.rtlib.lock
    rt.rtlib.lock = lambda crates: hold(crates[-1:])


def crates(rt, top):
    """Returns the repository's crates by their names."""
    rt.rtlib.guarded()
    return {it.name: it for it in rt.rtlib.crates_below(top)}


def linked(folder, to):
    """Makes a folder of links to the files of another one. A check replaces such a file, and does not write into it."""
    shutil.copytree(folder, to, copy_function=os.link)


def with_proofs(build_rlib):
    """Returns the call that builds a library, so that a run keeps its checked proofs in it, and not its statements alone. Its verdict is
    the same, from nothing. Turned bodies begin with what it holds."""

    def build(crate, *given, **named):
        crate.cuts_libraries = False
        return build_rlib(crate, *given, **named)

    return build


def take_proofs(crate, kept):
    """Writes what a library's build of this run checked as a folder of kept work: a file a module, in a folder with the name of the
    toolchain's build, which the head of each file has. If the library has no such archive, nothing is written."""
    made = f"{crate.rlib}/toolchain/checked"
    if not os.path.isfile(f"{made}.json"):
        return
    with open(f"{made}.json", encoding="utf-8") as names, open(f"{made}.a", "rb") as archive:
        whole = archive.read()
        # (the last one is the archive's sum)
        parts = [(name, whole[at : at + size]) for name, at, size in map(json.loads, names) if "/" not in name]
    kernel = re.search(rb"(?m)^--@ kernel (\S+)$", parts[0][1])[1].decode().replace("/", "_")
    os.makedirs(f"{kept}/{kernel}", exist_ok=True)
    for name, text in parts:
        with open(f"{kept}/{kernel}/{name}.oantt", "wb") as file:
            file.write(text)


def is_refusal(rt, kind):
    """Returns whether an answer of `must_fail` is that the prover refused the edit: a flag, or with the later version one of three words."""
    return kind is True or kind in [getattr(rt, it) for it in ("REFUSED", "AT_LIMIT") if hasattr(rt, it)]


def describe(folder, name, uses):
    """Writes the file by which `rt` reads a crate that crates.txt does not list."""
    labels = "".join(f'    "//crates/{it}",\n' for it in uses)
    with open(f"{folder}/BUILD.bazel", "w", encoding="utf-8") as file:
        file.write(f'load("@rattle//bazel/rattle:crate.bzl", "rattle_crate")\nrattle_crate(name = "{name}", deps = [\n{labels}])\n')


class Held:
    """Standard output but for the closing line of `rt ci`, which is held back, since more is counted after it. Keeps the lines that say
    seconds."""

    def __init__(self, out):
        self.out, self.rest, self.counts, self.seconds, self.lock = out, "", None, [], threading.Lock()

    def write(self, text):
        with self.lock:
            *lines, self.rest = (self.rest + text).split("\n")
            for line in lines:
                found = CLOSING.fullmatch(line)
                if found:
                    self.counts = [int(it) for it in found.groups()]
                else:
                    self.out.write(line + "\n")
                    self.seconds += [line] * line.startswith("seconds ")
        return len(text)

    def flush(self):
        self.out.flush()

    @property
    def buffer(self):
        """Returns the stream of bytes below, to which `rt` writes what tests print."""
        self.out.flush()
        return self.out.buffer


def stolen():
    """Returns the seconds that the machine's processors were taken away from it so far."""
    with open("/proc/stat", encoding="ascii") as it:
        return int(it.readline().split()[8]) / os.sysconf("SC_CLK_TCK")


def worked():
    """Returns the processor seconds of this process and of all that it has started and waited for."""
    used = [resource.getrusage(it) for it in (resource.RUSAGE_SELF, resource.RUSAGE_CHILDREN)]
    return sum(it.ru_utime + it.ru_stime for it in used)


def timed(call, name_of):
    """Returns the call, which then prints its seconds under the name that is made of its arguments."""

    def run(*given, **named):
        began = time.monotonic()
        result = call(*given, **named)
        print(f"seconds {time.monotonic() - began:.1f} {name_of(*given, **named)}", flush=True)
        return result

    return run


class Run:
    """A run of `rt ci` that tries the turned bodies of each crate too.

    `edits_of` gives a crate's turned bodies. `try_all` tries them over a folder of kept work, and answers pairs of a body and whether it
    was refused. They are tried beside the named wrong designs of their crate, and over the same kept work. The later version has a task
    for each of those designs, in place of which one task tries all edits of a crate."""

    def __init__(self, edits_of, try_all, is_timed):
        self.edits_of, self.try_all, self.is_timed = edits_of, try_all, is_timed
        self.rt, self.crates, self.results, self.seconds, self.held = script(), {}, {}, [], []
        rt = self.rt
        hold = rt.rtlib.lock
        rt.rtlib.lock = lambda crates: self.held.extend(hold(crates))
        listed, lanes, must_fail = rt.crates_of, rt.in_lanes, rt.must_fail

        def crates_of(*given):
            found = listed(*given)
            self.crates = {it.name: it for it in found}
            return found

        rt.crates_of = crates_of
        rt.in_lanes = lambda tasks: lanes(self.told(self.with_lines(tasks)))
        rt.Crate.build_rlib = with_proofs(rt.Crate.build_rlib)
        if hasattr(rt, "must_fail_all"):
            rt.must_fail_all = self.must_fail_all
        else:
            rt.add_edits = self.add_edits
        remember_sums(rt)
        rt.must_fail = self.clocked(must_fail, lambda crate, edit, *_: f"edit {crate.name}/{os.path.basename(edit)}")

    def clocked(self, call, name_of):
        """Returns the call, which prints its seconds if that is wanted."""
        return timed(call, name_of) if self.is_timed else call

    def with_lines(self, tasks):
        """Returns the tasks with the lines of source that their time is like, so that long ones start early. Edits have those of their crate, if
        it has turned bodies. Tests and programs are compiled too, and have more."""

        def lines(key):
            name, kind = key
            if kind == "edits" and self.edits_of(self.crates[name]):
                return self.crates[name].count(rb"\n")
            return tasks[key][1] * (TESTS_LINES if kind == "tests" else 1) + PROGRAM_LINES * (kind == "proof" and self.crates[name].is_program)

        return {key: (task[0], lines(key), *task[2:]) for key, task in tasks.items()}

    def add_edits(self, tasks, crate, named, _, waits, is_well, *__):
        """Adds the task that tries a crate's edits. Returns the call that gives what each named wrong design came to, and the one that gives
        those of earlier runs: none."""

        def tried(given, _):
            return self.must_fail_all(crate, named, ["--jobs", "1"]) if is_well(given, len(named)) else []

        tasks[crate.name, "edits"] = (waits, crate.count(rb"\n"), self.rt.need(crate), tried)
        return (lambda given: given[crate.name, "edits"]), dict

    def must_fail_all(self, crate, named, flags):
        """Tries a crate's turned bodies and its named wrong designs together, over what its proof in this run checked. A design that is not
        refused there is tried alone. Returns of each design what `must_fail` does."""
        with tempfile.TemporaryDirectory(prefix="rt-edits-") as kept:
            bodies = self.edits_of(crate)
            if not bodies and not named:
                return []
            take_proofs(crate, kept)
            name_of = lambda *_, **__: f"{crate.name} turned jobs=1"
            tried = self.clocked(self.try_all, name_of)(self.rt, crate, [*bodies, *named], kept, 1, alone=bodies)
            self.results[crate.name] = [it for it in tried if it[0] in bodies]
            refused = {edit for edit, is_refused in tried if is_refused}
            left = [it for it in named if it not in refused]
            alone = dict(zip(left, self.clocked(self.named, lambda *_: f"{crate.name} named jobs=1")(crate, left, flags, kept))) if left else {}
            told = getattr(self.rt, "REFUSED", True)
            return [alone.get(it) or (told, f"must-fail {crate.name}/{os.path.basename(it)}: refused at a goal of its own function") for it in named]

    def named(self, crate, edits, flags, kept):
        """Tries named wrong designs, and returns of each what `must_fail` does."""
        tried = [self.rt.must_fail(crate, it, flags, kept) for it in edits]
        is_sound = not self.rt.checked(crate, {}, flags, kept).returncode
        holds = lambda kind: is_sound and is_refusal(self.rt, kind)
        return [it if holds(it[0]) else self.rt.must_fail(crate, edit, flags) for edit, it in zip(edits, tried)]

    def told(self, tasks):
        """Returns the tasks, each of which prints its seconds if that is wanted, but for those whose parts do. A program gets one lane: most
        of its time is the compiler's, which uses no more."""
        name = lambda key: (lambda given, jobs: f"{' '.join(map(str, key))} jobs={jobs}")
        narrow = lambda call: (lambda given, jobs: call(given, 1))
        calls = {key: task[3] if key[1] == "edits" else self.clocked(task[3], name(key)) for key, task in tasks.items()}
        is_program = lambda key: key[1] == "proof" and self.crates[key[0]].is_program
        return {key: (*task[:3], narrow(calls[key]) if is_program(key) else calls[key]) for key, task in tasks.items()}

    def run(self):
        """Makes the run, and returns how much passed and how much failed."""
        out, before = sys.stdout, stolen()
        sys.stdout = held = Held(out)
        try:
            status = self.clocked(self.rt.main, lambda _: f"all cores={self.rt.processors()} stolen={stolen() - before:.0f} worked={worked():.0f}")(["ci"])
        finally:
            sys.stdout, self.seconds = out, held.seconds
            # `rt` holds the crates' folders as long as its process lives. What comes after the run works in them too.
            for it in self.held:
                os.close(it)
        passed, failed = held.counts or (0, 1)
        tried = {edit: it for found in self.results.values() for edit, it in found}
        wanted = [(crate.name, edit) for crate in self.crates.values() for edit in self.edits_of(crate)]
        lost = [f"{name}/{os.path.basename(edit)}: {'NOT REFUSED' if edit in tried else 'NOT TRIED'}" for name, edit in wanted if not tried.get(edit)]
        print("".join(f"turned {it}\n" for it in lost), end="")
        print(f"turned bodies: {len(wanted) - len(lost)} of {len(wanted)} refused, each at a goal of its own function")
        return passed + len(wanted) - len(lost), failed + len(lost) + (status != 0 and failed == 0)


def run_alone(top, edits_of):
    """Runs `rt ci` over a copy of the repository, with each turned body as an edit that must fail, by documented calls alone."""
    room = f"{top}/.gate"
    shutil.rmtree(room, ignore_errors=True)
    os.makedirs(f"{room}/.git")
    try:
        shutil.copytree(f"{top}/crates", f"{room}/crates", ignore=shutil.ignore_patterns("out"))
        for name in ("crates.txt", "HANDLES"):
            shutil.copy2(f"{top}/{name}", room)
        for crate in os.listdir(f"{room}/crates"):
            for edit in edits_of(f"{room}/crates/{crate}"):
                os.makedirs(f"{room}/crates/{crate}/must-fail", exist_ok=True)
                shutil.move(edit, f"{room}/crates/{crate}/must-fail/{os.path.basename(edit)}")
        ran = subprocess.Popen(["rt", "ci"], cwd=room, stdout=subprocess.PIPE, text=True)
        counts = None
        for line in ran.stdout:
            found = CLOSING.fullmatch(line.rstrip("\n"))
            counts = [int(it) for it in found.groups()] if found else counts
            print(line, end="", flush=True)
        passed, failed = counts or (0, 1)
        return passed, failed + (ran.wait() != 0 and failed == 0)
    finally:
        shutil.rmtree(room, ignore_errors=True)
