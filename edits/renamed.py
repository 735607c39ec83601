"""Proof files under the names that an edit gives to goals and steps.

A goal and a step are named after the source (`returns-then-x-eq0`, `c.if-not-passes`), so that an
edit of a condition or of a call renames them, and answers no longer fit where nothing else is
wrong. The check also tells each by its place in the code (`--old-names`): where an edit leaves the
places, an answer stays that of the same place. What it says of it is for the prover to judge.
"""

import json
import re
import shutil
import subprocess
import tempfile
from pathlib import Path

FILES = ("Invariants.antt", "Answers.antt")


def names_of(folder):
    """What the check tells of each function of the crate: by the folder of its proof files."""
    told = Path(tempfile.mkdtemp(prefix="darthog-names-"))
    try:
        subprocess.run(["rt", "check", "--jobs", "1", "--generated", str(told), "--old-names"],
                       cwd=folder, check=False, stdin=subprocess.DEVNULL,
                       stdout=subprocess.DEVNULL, stderr=subprocess.DEVNULL)
        found = told / "names.json"
        functions = json.loads(found.read_text(encoding="utf-8")) if found.is_file() else {}
    finally:
        shutil.rmtree(told, ignore_errors=True)
    return {m[1].replace(".", "/"): info for key, info in functions.items()
            if (m := re.fullmatch(r"Rattle-\w+?-proofs\.(.*)\.Lts", key))}


def by_place(info):
    """The goals, and the steps with the loops, each by what its place is called."""
    goals = dict(info["needs"])
    steps = {old: new for _, _, (old, new), *_ in info["places"] if old}
    loops = {old: new for (old, new), *_ in info["loops"]}
    for place, arm in zip(info["places"], info["arms"]):
        if arm:
            steps[f"arm of {place[0]}"] = arm[0]
    for old, new in loops.items():
        goals[f"invariant of {old}"] = f"invariant-{new}"
        goals[f"measure of {old}"] = f"decreases-{new}"
    return goals, steps


def turned(before, now):
    """The names that changed, from what they were to what they are."""
    return {name: now[place] for place, name in before.items() if now.get(place, name) != name}


def follow(before, now, proofs):
    """Rewrites the proof files of each function that has other names now; whether any has."""
    changed = False
    for function, info in now.items():
        if function not in before:
            continue
        goals, steps = (turned(a, b) for a, b in zip(by_place(before[function]), by_place(info)))
        for file in (proofs / function / f for f in FILES):
            if not file.is_file():
                continue
            old = file.read_text(encoding="utf-8")
            text = re.sub(r"(?<![\w'.≤-])([\w'≤+-]+)(?![\w'-])|(?<=goal\.)([\w'≤+-]+)",
                          lambda m: goals.get(m[0], m[0]), old)
            text = re.sub(r"(?<![\w'.-])([clw]\.)([\w'≤+-]+)",
                          lambda m: m[1] + steps.get(m[2], m[2]), text)
            if text != old:
                file.write_text(text, encoding="utf-8")
                changed = True
    return changed
