#!/usr/bin/env python3
"""Brings the names of this repository's definitions and lemmas to the spelling of today's Rattle.

    tools/respell.py            rewrites crates/, edits/ and the code spans of README.md and docs/
    tools/respell.py --table    only prints the table: old name, new name, where it is declared

It is run once, after /opt/rattle/port/port.py. A name turns if one of crates/*/specs or
crates/*/proofs declares it (an item, a field, a constructor, or a local of a 'where') and it is
written with capitals inside or with dashes between words: `everyBelow` and `every-below` become
`every_below`. What stays: types and modules, which begin with a capital; every name that the
sources use outside of clauses (functions, fields, parameters); names that the kit declares; and
what stands in strings and behind `file:` in an edit.
"""

import re
import sys
from collections import defaultdict
from pathlib import Path

TOP = Path(__file__).resolve().parent.parent

# Where a name would fall together with another: what it is called instead. Of a definition and the
# lemma that says what it is, the lemma gets `_lem`, also where port.py has turned it already.
INSTEAD = {
    "answered-before": "was_answered_before",
    "delete-min": "by_delete_min",
    "holds-place": "holds_place_lock",
    "holds-own": "holds_own_lock",
    "holds-node": "holds_node_lock",
    "is-refused": "is_sheet_refused",
    "is_digit": "is_digit_lem",
    "rank-at": "rank_at_lem",
    "read-node": "read_node_lem",
    "code_same": "code_same_lem",
    "entry_key": "entry_key_lem",
    "node_at": "node_at_lem",
    "node_ok": "node_ok_lem",
    "not_made": "not_made_lem",
    "one_more": "one_more_lem",
    "walk_begins": "walk_begins_lem",
    "within_of": "within_of_lem",
}
WORD = re.compile(r"[^\s(){}.;,@\"«»`]+")
DECLARED = re.compile(
    r"^(?P<indent> *)(?:(?:abbrev|unfoldable|let) )*(?:pub )?(?:record |data |ruleset |syntax )?"
    r"(?P<name>[^\s:(){}=.;,@\"«»]+)(?P<more>(?: [^\s:(){}=.;,]+)*)(?: [({].*)? :(?: |$)", re.M)
RULESET = re.compile(r"^(?:pub )?ruleset ([^\s=]+) =", re.M)
BOUND = re.compile(r"\blet ([^\s:=]+)(?= :|\s*=)|λ ([^.]*)\.|\(([^\s():]+) :", re.M)
CLAUSE = re.compile(
    r"(?:requires|ensures)\s*\*?\s*(?:\w+\s*)?\{|ghost\s+(?!use)(?:\w+\s*(?::\s*)?)?\{")
GHOST_USE = re.compile(r"ghost\s+use\b[^;]*;")


def snake(name):
    """The name with a low line for each dash between words and before each capital inside."""
    name = re.sub(r"(?<=[\w'₀-₉≤<≥≡])-(?=[\w≤<≥≡ℕ])", "_", name)
    name = re.sub(r"(?<=[a-z0-9'])([A-Z])", lambda m: "_" + m[1].lower(), name)
    return name


def turns(name):
    if not re.match(r"[a-z]", name) or "◌" in name:
        return False
    return snake(name) != name


def end_of(text, at):
    """Where the brace that is open before `at` closes."""
    depth = 1
    while at < len(text) and depth:
        depth += {"{": 1, "}": -1}.get(text[at], 0)
        at += 1
    return at


def clauses_of(text):
    """The spans of a source's clauses and ghost imports."""
    spans = [(m.start(), m.end()) for m in GHOST_USE.finditer(text)]
    for m in CLAUSE.finditer(text):
        spans.append((m.start(), end_of(text, m.end())))
    return sorted(spans)


def rust_of(text):
    """A source without its comments, its clauses and its ghost imports."""
    text = re.sub(r"//[^\n]*", "", text)
    parts, at = [], 0
    for start, end in clauses_of(text):
        if start >= at:
            parts.append(text[at:start])
            at = end
    return "".join(parts) + text[at:]


def sources(top):
    for path in sorted((top / "crates").rglob("*.rt")):
        if "/out/" not in str(path):
            yield path


def laws(top):
    for path in sorted((top / "crates").rglob("*.antt")):
        if "/out/" not in str(path):
            yield path


def generated(path):
    """Whether this file answers the goals of one function."""
    return "/proofs/" in str(path) and path.name in ("Proof.antt", "Answers.antt", "Invariants.antt")


def declared_in(text):
    text = re.sub(r"--[^\n]*", "", text)
    names = set()
    for m in DECLARED.finditer(text):
        names.add(m["name"])
        names.update(w for w in m["more"].split())
    names.update(m[1] for m in RULESET.finditer(text))
    for m in BOUND.finditer(text):
        words = m[1] or m[2] or m[3] or ""
        names.update(w for w in re.findall(r"[^\s(){}:]+", words))
    return names


def table_of(top):
    kept = set()
    for path in sources(top):
        kept.update(re.findall(r"\w+", rust_of(path.read_text(encoding="utf-8"))))
    where = defaultdict(list)
    for path in laws(top):
        if generated(path):
            continue
        for name in declared_in(path.read_text(encoding="utf-8")):
            if turns(name) and name not in kept:
                where[name].append(str(path.relative_to(top / "crates")))
    for path in [*sources(top), *(p for p in laws(top) if not generated(p))]:  # what a file calls it
        for m in re.finditer(r" as ([^\s,{}.;]+)", path.read_text(encoding="utf-8")):
            if turns(m[1]) and m[1] not in kept:
                where[m[1]].append(str(path.relative_to(top / "crates")))
    imported = set()  # what a file takes from the kit keeps the kit's spelling
    for path in laws(top):
        text = path.read_text(encoding="utf-8")
        for m in re.finditer(r"^use (\S+?)\.\{(.*?)\}", text, re.M | re.S):
            own = re.match(r"Rattle\.(\w+)\.", m[1])
            if not own or not (top / "crates" / own[1]).is_dir() or ".declared." in m[1]:
                imported.update(w.partition(" as ")[0].strip() for w in m[2].split(","))
    table = {name: (snake(name), files) for name, files in where.items() if name not in imported}
    for names in same_ones(table).values():
        for name in names:
            if "-" in name:
                table[name] = (snake(name) + "_lem", table[name][1])
    for path in laws(top):
        for name in declared_in(path.read_text(encoding="utf-8")) & set(INSTEAD):
            where[name].append(str(path.relative_to(top / "crates")))
    for name, new in INSTEAD.items():
        table[name] = (new, where[name])
    return table


def turn_words(text, table):
    return WORD.sub(lambda m: turned(m[0], table), text)


def turned(word, table):
    if word in table:
        return table[word][0]
    bare = word.rstrip("'")
    if bare != word and bare in table:
        return table[bare][0] + word[len(bare):]
    return word


def turn_source(text, table):
    """A source: its clauses, its ghost imports, and the code spans of its comments."""
    parts, at = [], 0
    for start, end in clauses_of(text):
        if start >= at:
            parts += [spans(text[at:start], table), turn_words(text[start:end], table)]
            at = end
    return "".join(parts) + spans(text[at:], table)


def spans(text, table):
    return re.sub(r"`[^`\n]+`", lambda m: turn_words(m[0], table), text)


def turn_edit(text, table):
    lines = []
    for line in text.splitlines(keepends=True):
        lines.append(line if line.startswith("file: ") else turn_words(line, table))
    return "".join(lines)


def write(path, text, old):
    if text != old:
        path.write_text(text, encoding="utf-8")


def same_ones(table):
    """Names that fall together: several old ones with one new one."""
    olds = defaultdict(list)
    for old, (new, _) in table.items():
        olds[new].append(old)
    return {new: names for new, names in olds.items() if len(names) > 1}


def main():
    table = table_of(TOP)
    if "--table" in sys.argv[1:]:
        for old, (new, files) in sorted(table.items()):
            print(f"{old}\t{new}\t{', '.join(files)}")
        for new, names in sorted(same_ones(table).items()):
            print(f"together: {new}: {', '.join(names)}", file=sys.stderr)
        return 0
    for path in laws(TOP):
        old = path.read_text(encoding="utf-8")
        write(path, turn_words(old, table), old)
    for path in sources(TOP):
        old = path.read_text(encoding="utf-8")
        write(path, turn_source(old, table), old)
    for folder in ("edits", "crates"):
        for path in sorted((TOP / folder).rglob("*.edit")):
            old = path.read_text(encoding="utf-8")
            write(path, turn_edit(old, table), old)
    for path in [TOP / "README.md", *sorted((TOP / "docs").rglob("*.md"))]:
        old = path.read_text(encoding="utf-8")
        write(path, spans(old, table), old)
    print(f"{len(table)} names")
    return 0


if __name__ == "__main__":
    sys.exit(main())
