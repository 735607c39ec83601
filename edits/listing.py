"""Which public function or definition each edit changes, and which have fewer than two edits.

A function's edits are those in its own text: its contract refuses them. A definition's edits are
those in its own text, and those of every function and every other definition that cites it,
directly or through others: what they rule out, they rule out by it. The statements of theorems are
definitions that nothing cites, so that they need edits of their own. Names are resolved by the
`use` and `ghost use` lines of each file.
"""

import re
from bisect import bisect_right
from collections import defaultdict
from dataclasses import dataclass, field

ENOUGH = 2

SOURCE_ITEM = re.compile(
    r"^(?P<indent> *)(?P<pub>pub )?(?:pub\(crate\) )?(?:extern \"C\" )?"
    r"(?P<kind>fn|const|struct|enum|impl) (?P<name>\w+)", re.M)
SPEC_ITEM = re.compile(
    r"^(?:(?:abbrev|unfoldable) )?(?P<pub>pub )?(?P<kind>record |data )?(?P<name>[^\s:()]+)"
    r"(?: \(.*\))? : ", re.M)
SOURCE_USE = re.compile(r"^ghost use (\S+?)\.\{(.*?)\};", re.M | re.S)
SPEC_USE = re.compile(r"^use (\S+?)\.\{(.*?)\}", re.M | re.S)
CLAUSE = re.compile(r"^ *(?:requires|ensures|ghost)\b[\w *:]*\{", re.M)
WORD = re.compile(r"[^\s(){}\[\],;.:&#!λ]+")


@dataclass
class Item:
    crate: str
    file: str
    kind: str  # fn, const, struct, enum, or definition
    name: str
    public: bool
    start: int
    text: str = ""
    cites: set = field(default_factory=set)

    @property
    def body(self):
        """What follows a function's contract: from the line that is its opening brace alone."""
        indent = self.text[:len(self.text) - len(self.text.lstrip(" "))]
        return self.text.partition(f"\n{indent}{{\n")[2]

    @property
    def head(self):
        """What stands before a function's body: its signature and its contract."""
        return self.text[:len(self.text) - len(self.body)] if self.body else self.text

    @property
    def clauses(self):
        """The words of a function's contract."""
        words, head = set(), self.head
        for m in CLAUSE.finditer(head):
            at, depth = m.end(), 1
            while at < len(head) and depth:
                depth += {"{": 1, "}": -1}.get(head[at], 0)
                at += 1
            words.update(WORD.findall(head[m.end():at]))
        return words

    @property
    def path(self):
        """The function as the prover names it."""
        module = self.file.removeprefix("src/").removesuffix(".rt").replace("/", "::")
        parts = [self.crate] + ([] if module in ("lib", "main") else [module]) + [self.name]
        return "::".join(parts)

    @property
    def title(self):
        module = self.file.removeprefix("src/").removeprefix("specs/").rsplit(".", 1)[0]
        path = f"{module}::{self.name}" if self.file.startswith("src/") else f"{module}.{self.name}"
        return f"{'fn' if self.kind == 'fn' else self.kind} {path.removeprefix('lib::')}"


def cut(items, text):
    for item, after in zip(items, items[1:] + [None]):
        item.text = text[item.start:after.start if after else len(text)]
    return items


def source_items(crate, file, text):
    items, owner = [], ""
    for m in SOURCE_ITEM.finditer(text):
        if m["kind"] == "impl":
            owner = m["name"] + "::"
            continue
        if not m["indent"]:
            owner = ""
        items.append(Item(crate, file, m["kind"], owner + m["name"], bool(m["pub"]), m.start()))
    return cut(items, text)


def spec_items(crate, file, text):
    found = [m for m in SPEC_ITEM.finditer(text) if m["name"] not in ("use", "module", "pub")]
    items = [Item(crate, file, "definition", m["name"], bool(m["pub"]), m.start()) for m in found]
    return cut(items, text)


def imported(pattern, text):
    """The names that a file takes from specs/: the one here, and (crate, module, name there)."""
    names = {}
    for path, listed in pattern.findall(text):
        own = re.fullmatch(r"Rattle\.(\w+?)\.specs\.(?!declared)([\w.]+)", path)
        for entry in listed.split(",") if own else ():
            there, _, here = entry.strip().partition(" as ")
            names[here or there] = (own[1], own[2], there)
    return names


def read_items(top, crates):
    """All items by (crate, file), and the definitions by (crate, module, name)."""
    files, definitions = {}, {}
    for crate in crates:
        for path in sorted((top / "crates" / crate).glob("s*/**/*.*")):
            file = str(path.relative_to(top / "crates" / crate))
            text = path.read_text(encoding="utf-8")
            if file.endswith(".rt"):
                files[crate, file] = source_items(crate, file, text)
                names = imported(SOURCE_USE, text)
                for item in files[crate, file]:
                    item.cites = {names[w] for w in item.clauses if w in names}
            elif file.startswith("specs/"):
                module = file.removeprefix("specs/").removesuffix(".antt")
                files[crate, file] = spec_items(crate, file, text)
                names = imported(SPEC_USE, text)
                own = {i.name: (crate, module, i.name) for i in files[crate, file]}
                for item in files[crate, file]:
                    words = set(WORD.findall(re.sub(r"--.*", "", item.text))) - {item.name}
                    item.cites = {own.get(w) or names[w] for w in words if w in own or w in names}
                    definitions[crate, module, item.name] = item
    return files, definitions


def changed_items(files, edit):
    """The items whose text an edit changes."""
    changed = []
    for file, old, _ in edit.pairs:
        items = files.get((edit.crate, file), [])
        holders = [i for i in items if old in i.text]
        if holders and holders[0] not in changed:
            changed.append(holders[0])
    return changed


def reached(item, definitions):
    """The definitions that an item's contract or text cites, directly or through others."""
    seen, todo = set(), list(item.cites)
    while todo:
        key = todo.pop()
        if key not in seen and key in definitions:
            seen.add(key)
            todo.extend(definitions[key].cites)
    return seen


def collect(top, crates, edits):
    files, definitions = read_items(top, crates)
    held = defaultdict(list)
    for edit in edits:
        for item in changed_items(files, edit):
            held[id(item)].append(edit.name)
    through = defaultdict(set)
    for item in (i for items in files.values() for i in items if held[id(i)]):
        for key in reached(item, definitions):
            through[key].update(f"{item.crate}/{name}" for name in held[id(item)])
    return files, definitions, held, through


def show(top, crates, edits):
    files, definitions, held, through = collect(top, crates, edits)
    short, rows = [], 0
    print(f"{'crate':<16}{'function or definition':<48}edits")
    for (crate, _), items in files.items():
        for item in items:
            names = held[id(item)]
            key = (crate, item.file.removeprefix("specs/").removesuffix(".antt"), item.name)
            count = len(names) + len(through[key] if item.kind == "definition" else ())
            asked = item.public and item.kind in ("fn", "definition")
            if names or (asked and item.kind == "fn"):
                print(f"{crate:<16}{item.title:<48}{', '.join(names)}")
                rows += 1
            if asked and count < ENOUGH:
                short.append((crate, item.title, count))
    print(f"{rows} functions and definitions with edits of their own")
    lost = [e.label for e in edits if not changed_items(files, e)]
    print(f"{len(edits)} edits, {len(lost)} of them in no function or definition")
    for crate, title, count in short:
        print(f"fewer than {ENOUGH}: {crate:<16}{title:<48}{count}")
    public = [i for items in files.values() for i in items
              if i.public and i.kind in ("fn", "definition")]
    print(f"{len(public) - len(short)} passed, {len(short)} failed")
    return 1 if short else 0
