"""What each edit can reach: which functions and lemmas of its crate it can make fail.

Everything goes by words, whatever module they stand in, so that too much is reached and never too
little: a text reaches each definition, constant, type, lemma and function of its crate whose name
it has as a word, and what those reach. Of a function that is called only its contract is, since
a proof knows nothing else of it.
"""

import re
from collections import defaultdict

import listing

LEMMA = re.compile(r"^(?!use |module |mod |pub mod |--|import )"
                   r"(?:(?:abbrev|unfoldable|mutual|opaque) )*(?:pub )?"
                   r"(?:record |data )?(?P<name>[^\s:(){}]+)(?= |:|$)", re.M)
ALIAS = re.compile(r"([\w.'◌≡]+) as ([\w.'◌≡]+)")
PARTS = re.compile(r"[^\s(){}\[\],;.:&#!λ◌|]+")
COMMENT = re.compile(r"(?:--|//).*")


def words_of(text):
    return set(PARTS.findall(COMMENT.sub("", text)))


def lemmas(text):
    """The declarations of a proof file: (name, text). A name's clauses follow its type."""
    found = []
    for m in LEMMA.finditer(text):
        if found and found[-1][0] == m["name"]:
            continue
        found.append((m["name"], m.start()))
    ends = [at for _, at in found[1:]] + [len(text)]
    return [(name, text[at:end]) for (name, at), end in zip(found, ends)]


class Reach:
    """The texts of a crate and what each cites."""

    def __init__(self, top, crate, files):
        self.crate, self.words, self.named = crate, defaultdict(set), defaultdict(set)
        self.aliases = defaultdict(set)
        self.functions = {}  # the folder of a function's proof files: the function
        for (owner, file), items in files.items():
            if owner == crate:
                self.read_items(file, items)
        folder = top / "crates" / crate
        for path in [*folder.glob("specs/**/*.antt"), *folder.glob("proofs/**/*.antt"),
                     *folder.glob("src/**/*.rt")]:
            for there, here in ALIAS.findall(path.read_text(encoding="utf-8")):
                self.aliases[here].update(PARTS.findall(there))
        for path in sorted(folder.glob("proofs/**/*.antt")):
            text = path.read_text(encoding="utf-8")
            inside = str(path.parent.relative_to(folder / "proofs"))
            if inside in self.functions:
                self.words["goal", self.functions[inside]] |= words_of(text)
                continue
            for name, own in lemmas(text):
                self.add(("lemma", name), name, own)
        self.reached = {}
        goals = [n for n in self.words if n[0] in ("goal", "lemma")]
        self.goals = {n: self.closure(n) for n in goals}

    def add(self, node, name, text):
        self.words[node] |= words_of(text)
        for part in PARTS.findall(name.split("::")[-1]):
            self.named[part].add(node)

    def read_items(self, file, items):
        tail = ""
        for item in items:
            if item.kind == "fn":
                head = ("head", item.path)
                self.add(head, item.name, item.head)
                goal = self.words["goal", item.path]
                # attributes stand above it, at the end of the text before
                goal |= words_of(item.text) | words_of(tail)
                self.words[head] |= words_of(tail)
                self.functions["/".join(item.path.split("::")[1:])] = item.path
            else:
                kind = "definition" if item.kind == "definition" else "other"
                self.add((kind, item.name), item.name, item.text)
            tail = re.split(r"\n *\}\n", item.text)[-1]

    def closure(self, start):
        seen, todo = {start}, [start]
        if start[0] == "goal":
            seen.add(("body", start[1]))
            todo.append(("head", start[1]))
            seen.add(("head", start[1]))
        while todo:
            words = set(self.words[todo.pop()])
            for word in list(words):
                words |= self.aliases.get(word, set())
            for word in words:
                for node in self.named.get(word, ()):
                    if node not in seen:
                        seen.add(node)
                        todo.append(node)
        return seen

    def near(self, node):
        """What cites this itself."""
        if node[0] == "body":
            return {("goal", node[1])}
        name = node[1].split("::")[-1]
        parts = set(PARTS.findall(name))
        return {g for g, reached in self.goals.items() if node in reached
                and (parts & self.words[g] or g[1] == node[1])}

    def users(self, nodes):
        return {g for g, reached in self.goals.items() if reached & nodes}


def changed(files, edit):
    """What an edit changes: bodies, contracts, definitions; nothing where it is another thing."""
    nodes = set()
    for file, old, _ in edit.pairs:
        holders = [i for i in files.get((edit.crate, file), []) if old in i.text]
        if len(holders) != 1:
            return set()
        item = holders[0]
        if item.kind == "fn" and old in item.body:
            nodes.add(("body", item.path))
        elif item.kind == "fn" and old in item.head:
            nodes.add(("head", item.path))
        elif item.kind == "definition" and not re.match(r"(?:pub )?(?:record|data) ", item.text):
            nodes.add(("definition", item.name))
        else:
            return set()
    return nodes


def name_reach(top, crates, edits):
    """Tells each edit which goals it reaches, and which of them are near."""
    files, _ = listing.read_items(top, crates)
    for crate in crates:
        own = [e for e in edits if e.crate == crate]
        if not own:
            continue
        reach = Reach(top, crate, files)
        for edit in own:
            nodes = changed(files, edit)
            edit.users = reach.users(nodes)
            edit.near = set().union(*(reach.near(n) for n in nodes)) if nodes else set()


def groups(edits, most):
    """The edits of a crate in groups, in each of which every edit has goals near it of its own."""
    made = []
    for edit in edits:
        fits = edit.users and edit.near and not edit.fault
        for group in made if fits else ():
            open_for_more = len(group) < most and group[0].near and not group[0].fault
            if open_for_more and together([*group, edit]):
                group.append(edit)
                break
        else:
            made.append([edit])
    return made


def own_goals(edit, group):
    """The goals that this edit alone of its group reaches."""
    return edit.users - set().union(*(e.users for e in group if e is not edit))


def together(group):
    for edit in group:
        near = edit.near & own_goals(edit, group)
        if not near or 2 * len(near) < len(edit.near):
            return False
    return True
