"""Checks changed copies of a crate, each over a copy of the work that a check of the crate itself kept.

A full check of a crate proves all of it again; over kept work only what the change reaches is proved. The
crate as it stands comes first, as control: it must be proved over what it keeps. What the checker says over
kept work is a working result, and no verdict: `rt ci` is that. The copies lie among the temporary files,
since `rt ci` refuses a repository with a .rt or .antt file outside its crates.
"""
import atexit
import concurrent.futures
import functools
import os
import pathlib
import queue
import re
import shutil
import subprocess
import tempfile

ROOT = pathlib.Path(__file__).resolve().parent.parent
PARTS = ("src", "specs", "proofs")

PROVED, REFUSED, UNFIT = "proved", "refused", "unfit"

# what antt says where a text names something that is not there, or is no term at all
UNREAD = r"is not in scope|has no field|is no name|operand is missing|expected the end|cannot continue"
# what it says of a proof that names what is gone, as a goal or a step of the code is that has another name, and of
# what it did not check since it cites a proof that fell
GONE = r"has no field|is not in scope|has no `"
FELL = r"was not admitted|was rejected"
# an error's words: antt writes behind a long name, on a line of its own, that a record has no such field
SAID = r"(.*(?:\n  has no .*)?)$"
# what rt says of an edit that the prover refuses
AS_IT_MUST = "refused, as it must be"
UNREADABLE = "BAD EDIT: the prover cannot read the edited text, so no contract was tried"


def jobs():
    """How many checks run at a time: as many as there are processors, and as memory of 4 GB for each holds."""
    if os.environ.get("RT_JOBS"):
        return int(os.environ["RT_JOBS"])
    free = re.search(r"MemAvailable:\s+(\d+) kB", pathlib.Path("/proc/meminfo").read_text())
    return max(1, min(len(os.sched_getaffinity(0)), int(free[1]) // 4_000_000))


JOBS = jobs()


def first_error(log):
    """The first error of a check's log, or the note that stands for it."""
    found = re.search(r"^\S+: error.*$", log, re.M) or re.search(r"^note: .*$", log, re.M) or re.search(r"^fn .*: no.*$", log, re.M)
    return found.group() if found else ""


def unread(log, changed):
    """The first error of a text of src/, specs/ or a changed file that antt cannot read, where there is one: that
    such a text is false is said in other words."""
    for error in re.finditer(r"^(?:\./)?(\S+?):\d+:\d+: error: (?:(`[^`]*`): )?" + SAID, log, re.M):
        file, name, said = error.groups()
        unnamed = not name and not re.search(FELL, said)
        if (file in changed or file.startswith(("src/", "specs/"))) and (unnamed or re.search(UNREAD, re.sub(r"`[^`]*`", "", said))):
            return error.group()
    return None


def edited(name, edit):
    """The texts of the files of a crate that an edit changes."""
    texts, path, old = {}, None, None
    for line in edit.read_text().splitlines():
        if line.startswith("file: "):
            path = line[len("file: "):].strip()
        elif line.startswith("old: "):
            old = line[len("old: "):]
        elif line.startswith("new:"):
            text = texts.get(path) or (ROOT / "crates" / name / path).read_text()
            if text.count(old) != 1:
                raise ValueError(f"`{old}` is {text.count(old)} times in {path}")
            texts[path] = text.replace(old, line[len("new:"):].removeprefix(" "))
    if not texts:
        raise ValueError("it changes nothing")
    return texts


def functions(name, texts=None):
    """The functions of a crate: the file, the line, and what the names of the proof files begin with that are its own.
    Those of a method stand with the file that defines the type, wherever its impl is."""
    folder = ROOT / "crates" / name
    files = {str(path.relative_to(folder)): path.read_text() for path in sorted(folder.glob("src/**/*.rt"))}
    files |= {path: text for path, text in (texts or {}).items() if path.startswith("src/")}
    modules = {path: re.sub(r"^(?:lib|main)/", "", path.removeprefix("src/").removesuffix(".rt") + "/") for path in files}
    defined = {found: modules[path] for path, text in files.items() for found in re.findall(r"^(?:pub(?:\(crate\))? )?(?:struct|enum|union) (\w+)", text, re.M)}
    for path, text in files.items():
        owner = modules[path]
        for number, line in enumerate(text.splitlines(), 1):
            of, function = re.match(r"impl\b.*?(\w+)(?:<[^<>]*>)? \{", line), re.match(r"(?!\s*//).*?\bfn (\w+)", line)
            if of:
                owner = f"{defined.get(of[1], modules[path])}{of[1]}/"
            elif line.startswith("}"):
                owner = modules[path]
            elif function:
                yield path, number, rf"proofs/{owner}{function[1]}(?:/|\.antt$)"


@functools.cache
def owned(name):
    """Stops where the proofs of a function of the crate belong to no function of src/, or to two: what is their own
    could not be told."""
    folder = ROOT / "crates" / name
    for path in sorted(folder.glob("proofs/**/*.antt")):
        file = str(path.relative_to(folder))
        owners = [f"{source}:{line}" for source, line, own in functions(name) if re.match(own, file)]
        if len(owners) > 1 or not owners and path.name in ("Answers.antt", "Invariants.antt"):
            raise SystemExit(f"{name}: {file} belongs to {' and '.join(owners) or 'no function of src/'}")


def own_proofs(name, texts, path, line):
    """What the names of the proof files begin with that are of the one function a place in src/ lies in. A function
    begins with its attributes."""
    lines = (texts.get(path) or (ROOT / "crates" / name / path).read_text()).splitlines()
    places = [(number, own) for file, number, own in functions(name, texts) if file == path]
    if lines[line - 1].lstrip().startswith("#["):
        near = [own for number, own in places if number > line][:1]
    else:
        near = [own for number, own in places if number <= line][-1:]
    if not near:
        raise ValueError(f"there is no function at {path}:{line}")
    return near[0]


def in_doubt(name, edit, word):
    """Whether what rt tells of a refused edit, the first error or else the first note, leaves open that the proof only
    became unfit. A goal that is noted on a function without proof files of its own can have lost none. What fell with
    a theorem in a file that the edit changes rt takes for a text that cannot be read, and it does not see that a
    record has no such field where that is on the error's next line."""
    owned(name)
    if re.match(rf"{AS_IT_MUST}: \S+: error: (?:`[^`]*`: )?record `", word):
        return True
    if re.match(rf"({AS_IT_MUST}|{UNREADABLE}): \S+: error: \d+ declarations? that depends? on ", word):
        return True
    if not word.startswith(f"{AS_IT_MUST}: note: "):
        return False
    place = re.match(rf"{AS_IT_MUST}: note: (?:\./)?(src/\S+?):(\d+):\d+: it is not proved", word)
    if not place:
        return True
    own = own_proofs(name, edited(name, edit), place[1], int(place[2]))
    folder = ROOT / "crates" / name
    return any(re.match(own, str(path.relative_to(folder))) for path in folder.glob("proofs/**/*.antt"))


def lost(name, texts, log):
    """What the proofs name that is gone, where a refusal rests on nothing else: goals and steps are named after the
    code, so an answer can fall whatever the changed program means, and a goal that has no answer then is noted. No
    error but of such names stands in the log, and each goal noted is of a function whose own proof files lost one."""
    errors = re.findall(r"^(?:\./)?(\S+?):\d+:\d+: error: " + SAID, log, re.M)
    gone = [said for file, said in errors if file.startswith("proofs/") and re.search(GONE, said)]
    if not gone or not all(re.search(f"{GONE}|{FELL}", said) for _, said in errors):
        return None
    for path, line in re.findall(r"^note: (?:\./)?(src/\S+?):(\d+):\d+: it is not proved", log, re.M):
        own = own_proofs(name, texts, path, int(line))
        if not any(re.match(own, file) for file, _ in errors):
            return None
    names = [re.search(r"(?:has no (?:field )?(`[^`]*`))|(`[^`]*`) is not in scope", said) for said in gone]
    return ", ".join(dict.fromkeys((found[1] or found[2]) if found else said[:160] for found, said in zip(names, gone)))


def stamps(folder):
    """The files of a folder, each with its size and time stamp, and what was proved with its number on the disk."""
    files = {}
    for path in folder.rglob("*"):
        if path.is_file():
            state = path.stat()
            files[path.relative_to(folder)] = (state.st_ino if path.suffix == ".oantt" else 0, state.st_size, state.st_mtime_ns)
    return files


def give(original, copy):
    """Copies a file; what was proved gets a second name, since a check replaces such a file and never changes it."""
    if str(original).endswith(".oantt"):
        os.link(original, copy)
    else:
        shutil.copy2(original, copy)


def restore(original, folder):
    """Makes a folder the original's copy again: the files that differ by size or time stamp are copied, others removed."""
    wanted, there = stamps(original), stamps(folder)
    for file in there.keys() - {file for file, stamp in wanted.items() if there.get(file) == stamp}:
        (folder / file).unlink()
    for file, stamp in wanted.items():
        if there.get(file) != stamp:
            (folder / file).parent.mkdir(parents=True, exist_ok=True)
            give(original / file, folder / file)


class Crate:
    """A crate, with a copy of the repository for the control and one for each check that runs at the same time."""

    def __init__(self, name):
        self.name = name
        self.work = pathlib.Path(tempfile.mkdtemp(prefix=f"imjarlet-{name}-"))
        atexit.register(self.close)
        self.control = self.work / "control"
        for crate in (ROOT / "crates").iterdir():
            for part in PARTS:
                if (crate / part).is_dir():
                    shutil.copytree(crate / part, self.control / "crates" / crate.name / part)
        shutil.copy(ROOT / "crates.txt", self.control)
        verdict, log = self._check(self.control)
        if verdict != PROVED:
            raise SystemExit(f"{name} as it stands is not proved over what its check keeps:\n{first_error(log)}")
        self.kept = self.control / "crates" / name / "out" / "incremental"
        self.free = None

    def _check(self, copy, *flags, changed=()):
        run = subprocess.run(["rt", "check", *flags], cwd=copy / "crates" / self.name, capture_output=True, text=True)
        log = run.stdout + run.stderr
        if run.returncode == 0 and re.search(r"^logic=proved", log, re.M):
            return PROVED, log
        reached = run.returncode == 1 and re.search(r"^logic=not-proved", log, re.M) and not unread(log, changed)
        return (REFUSED if reached else UNFIT), log

    def _copies(self):
        self.stamps = stamps(self.kept)
        self.free = queue.Queue()
        for job in range(JOBS):
            copy = self.work / str(job)
            shutil.copytree(self.control, copy, copy_function=give)
            self.free.put(copy)

    def check(self, texts):
        """The check of the crate with other texts in some of its files, and its log."""
        copy = self.free.get()
        try:
            folder = copy / "crates" / self.name
            restore(self.kept, folder / "out" / "incremental")
            before = {}
            for path, text in texts.items():
                file = folder / path
                before[file] = file.read_text()
                file.write_text(text)
            try:
                return self._check(copy, "--jobs", "1", changed=texts)
            finally:
                for file, text in before.items():
                    file.write_text(text)
        finally:
            self.free.put(copy)

    def each(self, work, items):
        """Each item with the work's result on it, some at a time, in order. Only who takes all of them learns that the
        kept work stayed as it was."""
        if self.free is None:
            self._copies()
        with concurrent.futures.ThreadPoolExecutor(JOBS) as pool:
            yield from zip(items, pool.map(work, items))
        if stamps(self.kept) != self.stamps:
            raise SystemExit(f"{self.name}: a check changed the work that the control kept, so what was said over it shows nothing")

    def shows_nothing(self, edit):
        """Why a refused edit that is in doubt shows nothing, and its log; nothing where a promise refuses it."""
        texts = edited(self.name, edit)
        verdict, log = self.check(texts)
        if verdict == PROVED:
            return "rt refuses it, and over the kept work the crate is proved with it", log
        if verdict != REFUSED:
            return f"it did not reach the prover: {first_error(log)}", log
        names = lost(self.name, texts, log)
        return names and f"it only makes the proof unfit: gone is {names}; change a value and keep the names: {first_error(log)[:200]}", log

    def close(self):
        shutil.rmtree(self.work, ignore_errors=True)
