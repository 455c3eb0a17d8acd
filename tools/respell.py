#!/usr/bin/env python3
"""Brings the repository's own definitions and lemmas to the spelling of today's Rattle, once, after port.py.

usage: python3 tools/respell.py [--table]     at the top of the repository; --table prints old and new names, and writes nothing

Words are in snake case (`classOf` and `below-next` become `class_of` and `below_next`), types in camel case (`One-line` becomes
`OneLine`). Only names that a file of specs/ or proofs/ declares are turned: in those files, in clauses, and in the edits. Where a
definition and a law fall together, the law gets `_law` after its name. Names of
the library, of generated goals and steps, and of functions and fields of src/ stay as they are.
"""
import collections
import pathlib
import re
import sys

# A law that had a definition's new name already, and the file that it stands in.
ALREADY = {"fed_by": "Events", "laid_by": "Events", "on_line": "LineLaws"}

ROOT = pathlib.Path(__file__).resolve().parent.parent
SIGNATURE = re.compile(r"^( *)((?:(?:pub|abbrev|unfoldable|data|record|mutual|ruleset) +)*)([^\s(){}.,;:@\"«»]+)(?= *(?:[({].*)?: | *:$| [(:{])")
WORD = re.compile(r"[^\s(){}.,;@\"«»]+")
GOAL = re.compile(r": *(?:tie|goal|need|goals)\.|: [A-Za-z]+\.Need-")
USE = re.compile(r"^(?:ghost )?use ([^{};\s]+?)(?:\.\{([^}]*)\})?(?: as ([^\s;]+))?;?$", re.M)
COMMENT = re.compile(r"(?<![^\s(){}.;,])--.*|//.*")


def turned(name):
    """The new spelling of a name, or the name itself."""
    if not name[0].isalpha() or not name.isascii():
        return name
    if name[0].isupper():
        return re.sub(r"[-_](\w)", lambda m: m[1].upper(), name)
    snake = name.replace("-", "_")
    return re.sub(r"(?<=[a-z0-9_])([A-Z])(?=[a-z0-9']|$|_)", lambda m: ("" if snake[m.start() - 1] == "_" else "_") + m[1].lower(), snake)


def files():
    for path in sorted((ROOT / "crates").rglob("*")):
        if path.is_file() and "out" not in path.parts and path.suffix in (".antt", ".rt", ".edit"):
            yield path


def goals(text):
    """The goals that a file of proofs/ answers: their names are generated."""
    return {SIGNATURE.match(l)[3] for l in text.splitlines() if GOAL.search(l) and SIGNATURE.match(l)}


def declared(text):
    names = set()
    for line in text.splitlines():
        m = SIGNATURE.match(COMMENT.sub("", line))
        if m and m[3] not in ("use", "let", "where", "in", "→", "λ", "elim", "do"):
            names.add(m[3])
    return names


def table(texts):
    every, new = set(), {}
    for path, text in texts.items():
        if path.suffix == ".antt":
            every |= declared(text)
            for name in declared(text) - goals(text):
                if turned(name) != name:
                    new[name] = turned(name)
    shared = collections.Counter(new.values())
    for name, to in new.items():
        if "-" in name and (shared[to] > 1 or to in every):
            new[name] = to + "_law"
    return new


def kit(text):
    """The names that a file brings in from the library."""
    rooms = {p.name for p in (ROOT / "crates").iterdir()}
    out, own = set(), {}
    for path, names, alias in USE.findall(text):
        head = path.split(".")
        inside = head[0] == "Rattle" and len(head) > 1 and head[1] in rooms
        made = inside and (head[-1] in ("Tie", "Statement", "Goals", "Given", "Lts", "Laws", "Key", "Met", "Code") or "declared" in head)
        for one in names.split(","):
            word = one.split(" as ")[-1].strip()
            if word and (not inside or made):
                out.add(word)
        if alias and inside and not made:
            own[alias] = True
    return out, set(own)


def calls():
    """The functions of src/, by the names that steps of a proof have."""
    return {n.replace("_", "-") for p in files() if p.suffix == ".rt" for n in re.findall(r"\bfn (\w+)", p.read_text(encoding="utf-8"))}


def turn(text, new, kind, skip, aliases, steps=frozenset()):
    """The text with each of its own names in the new spelling; a dashed name in steps stays after a dot."""
    present = set(WORD.findall(text))

    def local(word):
        """A variable of the text alone."""
        to = turned(word)
        return to if re.fullmatch(r"[a-z][a-z0-9]*[A-Z]\w*'*", word) and to not in present else None

    def code(part):
        out, at = [], 0
        for m in WORD.finditer(part):
            word, before = m[0], part[: m.start()]
            to = new.get(word) or (local(word) if kind == "antt" or "ensures" in part or "ghost" in part or "requires" in part else None)
            if to and before.endswith("."):
                head = WORD.findall(before[:-1])[-1:] or [""]
                if "-" in word and head[0] not in aliases and word in steps:
                    to = None
            if to and word in skip and not before.endswith("."):
                to = None
            if to and kind == "rt" and ("-" in word and not part.lstrip().startswith("ghost use")):
                to = None
            if to:
                out.append(part[at : m.start()] + to)
                at = m.end()
        return "".join(out) + part[at:]

    def said(part):
        """A comment: a name with a capital inside, or between backticks."""
        part = re.sub(r"`([^`\n]+)`", lambda m: "`" + code(m[1]) + "`", part)
        return re.sub(r"[A-Za-z][\w'-]*", lambda m: new.get(m[0], m[0]) if re.search(r"[a-z][A-Z]", m[0]) else m[0], part)

    lines = []
    for line in text.split("\n"):
        m = COMMENT.search(line)
        quiet = kind == "rt" and '"' in line
        if quiet:
            lines.append(line)
        elif m:
            lines.append(code(line[: m.start()]) + said(m[0]))
        else:
            lines.append(code(line))
    return "\n".join(lines)


def main():
    texts = {p: p.read_text(encoding="utf-8") for p in files()}
    new = table(texts)
    if "--table" in sys.argv[1:]:
        print("\n".join(f"{old}\t{to}" for old, to in sorted(new.items())))
        return
    called = calls()
    together = collections.defaultdict(set)
    every = set().union(*(declared(t) for p, t in texts.items() if p.suffix == ".antt"))
    for old, to in new.items():
        together[to].add(old)
    for to, olds in sorted(together.items()):
        if len(olds) > 1 or to in every:
            print(f"respell: these fall together as {to}: {', '.join(sorted(olds))}{' and the name itself' if to in every else ''}")
    for path, text in texts.items():
        if path.suffix == ".antt":
            brought, aliases = kit(text)
            known = text
            for law, home in ALREADY.items():
                if path.stem == home and law in declared(text) or re.search(rf"\.{home}\.\{{[^}}]*\b{law}\b", text):
                    known = re.sub(rf"(?<![\w.'-]){law}(?![\w'-])", law + "_law", known)
            steps = called | goals(text) if path.parent.name != "proofs" and "proofs" in path.parts else set()
            done = turn(known, new, "antt", brought | goals(text), aliases, steps)
            clash = sorted({new[w] for w in WORD.findall(text) if w in new and w not in brought} & brought)
            if clash:
                print(f"respell: {path.relative_to(ROOT)} has from the library, too: {', '.join(clash)}")
        elif path.suffix == ".rt":
            brought, aliases = kit(text)
            done = turn(text, new, "rt", brought, aliases)
        else:
            out, kind = [], ""
            for line in text.split("\n"):
                if line.startswith("file: "):
                    kind = line.strip().rsplit(".", 1)[1]
                if line.startswith(("old: ", "new: ")):
                    line = line[:5] + turn(line[5:], new, kind, set(), set())
                out.append(line)
            done = "\n".join(out)
        if done != text:
            path.write_text(done, encoding="utf-8")


main()
