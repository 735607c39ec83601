"""A trial: edits put into a copy of their crate, checked by the prover, and what it said judged."""

import fcntl
import itertools
import os
import re
import shutil
import subprocess
import tempfile
from dataclasses import dataclass, field
from pathlib import Path

import renamed

TOP = Path(__file__).resolve().parent.parent
WORK = TOP / "target" / "edits"
PARTS = ("src", "specs", "proofs")

# What the prover says where a proof file does not fit its function any more: a goal, a place of the
# code or a local of a loop is gone or new. None of these is about a fact.
MISFIT = re.compile(r"that can be named from here|has no field|is not a goal|exports no|"
                    r"is not in scope|has no `|is no name|was not declared|takes no `")
ERROR = re.compile(
    r"^(?:\./)?(?P<file>[\w/'-]+\.(?:rt|antt)):(?P<at>\d+:\d+): error(?:\[[\w-]+\])?: "
    r"(?:`(?P<name>[^`]*)`: )?", re.M)
NOT_ADMITTED = re.compile(r"`[^`]*`\s+was not\s+admitted|which is not proved")
FUNCTION = re.compile(r"^fn (?P<path>\S+): (?!proved)(?P<why>.*)$", re.M)
GOAL = re.compile(r"did not prove (`[^`]*`)|gave up[^`]*(`[^`]*`)")


@dataclass
class Edit:
    crate: str
    name: str
    path: Path
    pairs: list = field(default_factory=list)  # (file, old, new)
    fault: str = ""
    users: set = field(default_factory=set)  # the functions and lemmas that it can make fail
    near: set = field(default_factory=set)  # those of them that cite what it changes themselves

    @property
    def label(self):
        return f"{self.crate}/{self.name}"


@dataclass
class Verdict:
    passed: bool
    words: str
    unfit: bool = False  # nothing but that a proof file no longer fits


def read_edit(crate, path):
    edit = Edit(crate, path.stem, path)
    file = old = None
    for line in path.read_text(encoding="utf-8").splitlines():
        if line.startswith("file: "):
            file = line[len("file: "):]
        elif line.startswith("old: "):
            old = line[len("old: "):]
        elif line.startswith("new:"):
            if not file or not old:
                edit.fault = "a 'new:' line has no 'file:' or no 'old:' line before it"
                return edit
            edit.pairs.append((file, old, line[len("new:"):].removeprefix(" ")))
            old = None
    if not edit.pairs:
        edit.fault = "it has no 'old:' and 'new:' pair"
    return edit


def edited(edit, crate_dir):
    """The files of the crate with this edit, or the reason why it can not be put in."""
    texts = {}
    for file, old, new in edit.pairs:
        if not re.fullmatch(r"(src|specs)/(?!.*\.\.)[\w/.]+", file):
            return {}, f"{file} is no file of src/ or specs/"
        if not (crate_dir / file).is_file():
            return {}, f"{file} is not in the crate"
        text = texts.get(file) or (crate_dir / file).read_text(encoding="utf-8")
        if text.count(old) != 1:
            return {}, f"its text is in {file} {text.count(old)} times: {old}"
        texts[file] = text.replace(old, new)
    return texts, ""


def apply_edit(edit, crate_dir):
    """Puts the edit into a copy of the crate: the reason why it can not be, or nothing."""
    texts, fault = edited(edit, crate_dir)
    for file, text in texts.items():
        (crate_dir / file).write_text(text, encoding="utf-8")
    return fault


def fault_of(edit):
    return edit.fault or edited(edit, TOP / "crates" / edit.crate)[1]


def link(one, other):
    """Gives a file a second name, or copies it: rt and the prover replace such files whole."""
    try:
        os.link(one, other)
    except OSError:
        shutil.copy2(one, other)


def link_proved(one, other):
    (link if one.endswith(".oantt") else shutil.copy2)(one, other)


class Place:
    """A folder outside, where one check at a time is made: of a crate and those below.

    It lies there since rt ci wants every source file of the repository in a crate. Its name is the
    same in each run, since rt notes the folders that checks were made in.
    """

    def __init__(self):
        self.crate, self.names = "", {}
        for number in itertools.count():
            root = Path(tempfile.gettempdir()) / f"darthog-edits-{os.geteuid()}-{number}"
            root.mkdir(0o700, exist_ok=True)
            try:
                self.held = os.open(root, os.O_RDONLY | os.O_NOFOLLOW)
            except OSError:
                continue  # another user's
            try:
                fcntl.flock(self.held, fcntl.LOCK_EX | fcntl.LOCK_NB)
            except BlockingIOError:
                os.close(self.held)  # another run's
                continue
            if os.fstat(self.held).st_uid == os.geteuid():
                self.root = root
                return
            os.close(self.held)

    def remove(self):
        shutil.rmtree(self.root, ignore_errors=True)
        os.close(self.held)

    def prepare(self, crate):
        """The crates below as rt check left them; they stay until another crate is asked for."""
        lines = [l for l in (TOP / "crates.txt").read_text().splitlines()
                 if ":" in l and l[0] != "#"]
        line = next(l for l in lines if l.split(":")[0].split()[0] == crate)
        needed = {crate, *line.split(":")[1].split()}
        shutil.rmtree(self.root / "crates", ignore_errors=True)
        (self.root / "crates").mkdir(parents=True)
        (self.root / "crates.txt").write_text(
            "".join(f"{l}\n" for l in lines if l.split(":")[0].split()[0] in needed))
        for below in needed - {crate}:
            if (TOP / "crates" / below).is_dir():
                for part in (*PARTS, "out/rlib"):
                    if (TOP / "crates" / below / part).is_dir():
                        shutil.copytree(TOP / "crates" / below / part,
                                        self.root / "crates" / below / part, copy_function=link)
        self.crate, self.names = crate, {}

    def check(self, crate, edits, log, following=False):
        """Checks a copy of the crate with these edits: status and words, or why it can not be.

        Following them, it first gives the proof files the names that they make (renamed.py).
        """
        if self.crate != crate:
            self.prepare(crate)
        if following and not self.names:
            self.copy(crate, [])
            self.names = renamed.names_of(self.root / "crates" / crate)
        fault = self.copy(crate, edits)
        if fault:
            return None, fault
        there = self.root / "crates" / crate
        if following and not renamed.follow(self.names, renamed.names_of(there), there / "proofs"):
            return None, ""
        with open(log, "w", encoding="utf-8") as out:
            done = subprocess.run(["rt", "check", "--jobs", "1"], cwd=there, stdout=out,
                                  stderr=subprocess.STDOUT, stdin=subprocess.DEVNULL, check=False)
        return done.returncode, log.read_text(encoding="utf-8", errors="replace")

    def copy(self, crate, edits):
        """Lays out the crate with these edits; the reason why it can not be, or nothing."""
        own, there = TOP / "crates" / crate, self.root / "crates" / crate
        shutil.rmtree(there, ignore_errors=True)
        for part in PARTS:
            if (own / part).is_dir():
                shutil.copytree(own / part, there / part)
        fault = next(filter(None, (apply_edit(e, there) for e in edits)), "")
        if not fault and (own / "out" / "incremental").is_dir():
            shutil.copytree(own / "out" / "incremental", there / "out" / "incremental",
                            copy_function=link_proved)
        return fault


def is_proved(status, said):
    return status == 0 and re.search(r"^logic=proved ", said, re.M) is not None


def is_refused(status, said):
    return status == 1 and re.search(r"^logic=not-proved", said, re.M) is not None


@dataclass
class Refused:
    goal: tuple  # ("goal", function) or ("lemma", name)
    where: str


def errors_of(said):
    """Each error with its text: (file, place, name, text)."""
    found = list(ERROR.finditer(said))
    ends = [m.start() for m in found[1:]] + [len(said)]
    return [(m["file"], f"{m['file']}:{m['at']}", m["name"] or "", said[m.start():end])
            for m, end in zip(found, ends)]


def short(text):
    return " ".join(text.split("\n\n")[0][:200].split())[:160]


def function_of(crate, file, functions):
    """The function whose proof file this is, or nothing."""
    path = "::".join([crate, *file.split("/")[1:-1]])
    return path if path in functions else ""


def refusals(crate, said):
    """The facts that were refused, and what says no more than that a text does not fit."""
    facts, misfits = [], []
    errors = errors_of(said)
    functions = {m["path"]: m["why"] for m in FUNCTION.finditer(said)}
    proofs = {}
    for file, place, name, text in errors:
        first = text.split("\nfn ")[0]
        if file.startswith(("specs/", "src/")):
            misfits.append(("", f"a definition or a contract can not be read: {short(first)}"))
            continue
        function = function_of(crate, file, functions)
        goal = ("goal", function) if function else ("lemma", name.split(".")[-1])
        head = " ".join(first[:600].split())
        if MISFIT.search(head):
            misfits.append((goal, f"a proof file no longer fits its function: {short(first)}"))
        elif not NOT_ADMITTED.search(head) and (function or name):
            proofs.setdefault(goal, f"{place} `{name}`" if name else place)
    unfit = {goal for goal, _ in misfits}
    for path, why in functions.items():
        goal = ("goal", path)
        if goal in unfit:
            continue
        # that it calls what is not proved may stand beside an own goal, and says nothing alone
        asked = GOAL.search(why)
        if goal in proofs or asked:
            where = proofs.pop(goal, "") or asked[0]
            facts.append(Refused(goal, f"fn {path}; {where}"))
    facts += [Refused(goal, where) for goal, where in proofs.items()
              if goal not in unfit and goal[0] == "lemma"]
    return facts, misfits


def judge(crate, status, said):
    """Whether a check of an edited crate refused a fact, and in which words."""
    if status is None:
        return Verdict(False, said)
    if is_proved(status, said):
        return Verdict(False, "the crate is still proved with this edit")
    if not is_refused(status, said):
        first = next((l for l in said.splitlines() if "error" in l), f"exit status {status}")
        return Verdict(False, f"the prover was not reached: {first[:200]}")
    facts, misfits = refusals(crate, said)
    unread = next((words for goal, words in misfits if not goal), "")
    if unread:
        return Verdict(False, unread)
    if facts:
        return Verdict(True, "; ".join(r.where for r in facts[:2]))
    if misfits:
        return Verdict(False, misfits[0][1], True)
    return Verdict(False, "not proved, and no function or law is named that was refused")


def judge_own(crate, status, said, own):
    """Where a check of several edits refused one of the goals that this edit alone reaches.

    What a goal needs depends on what it reaches, so that none of the others made it fail.
    """
    if status is None or not is_refused(status, said):
        return ""
    facts, misfits = refusals(crate, said)
    if any(not goal for goal, _ in misfits):
        return ""
    return next((r.where for r in facts if r.goal in own), "")
