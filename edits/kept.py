"""Verdicts of earlier runs on this machine, by the checksum of all that they rest on.

As rt ci does of proofs: that an edit was refused is kept with what its check had read, and holds as
long as nothing of that changes: the kit, these scripts, the edit, its crate and the crates below.
Only passes are kept, in $XDG_CACHE_HOME/darthog-edits or ~/.cache/darthog-edits.
"""

import hashlib
import os
import subprocess
from pathlib import Path

HERE = Path(__file__).resolve().parent
PARTS = ("src", "specs", "proofs")


def sum_of(parts):
    """The checksum of some byte strings, told apart by their lengths."""
    total = hashlib.sha256()
    for part in parts:
        total.update(len(part).to_bytes(8, "little") + part)
    return total.digest()


def files_of(folder):
    return sorted(p for part in PARTS for p in (folder / part).rglob("*") if p.is_file())


class Kept:
    """What is kept, for the crates of a checkout."""

    def __init__(self, top):
        self.top, self.sums = top, {}
        cache = os.environ.get("XDG_CACHE_HOME") or Path.home() / ".cache"
        self.folder = Path(cache) / "darthog-edits"
        kit = subprocess.run(["rt", "version"], check=True, capture_output=True).stdout
        scripts = [(HERE / f).read_bytes() for f in
                   ("kept.py", "listing.py", "reach.py", "renamed.py", "run", "trial.py")]
        self.tools = sum_of([kit, *scripts])
        lines = [l.split("#")[0].strip() for l in (top / "crates.txt").read_text().splitlines()]
        self.lines = {l.split(":")[0].split()[0]: l for l in lines if ":" in l}

    def crate_sum(self, crate):
        """Of a crate's line and files, and of those of the crates below."""
        if crate not in self.sums:
            below = [c for c in self.lines[crate].split(":")[1].split() if c in self.lines]
            parts = []
            for c in [crate, *sorted(below)]:
                parts.append(self.lines[c].encode())
                for p in files_of(self.top / "crates" / c):
                    parts += [str(p.relative_to(self.top)).encode(), p.read_bytes()]
            self.sums[crate] = sum_of(parts)
        return self.sums[crate]

    def place(self, edit):
        pairs = [part.encode() for pair in edit.pairs for part in pair]
        words = [self.tools, self.crate_sum(edit.crate), edit.label.encode(), *pairs]
        name = sum_of(words).hex()
        return self.folder / name[:2] / name[2:]

    def words(self, edit):
        """Where the edit was refused, if that is known; or nothing."""
        place = self.place(edit)
        return place.read_text(encoding="utf-8") if place.is_file() else ""

    def keep(self, edit, words):
        place = self.place(edit)
        place.parent.mkdir(parents=True, exist_ok=True)
        mine = place.with_suffix(f".{os.getpid()}")
        mine.write_text(words, encoding="utf-8")
        mine.replace(place)
