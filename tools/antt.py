"""Reads a file of specs/ or of src/: what it declares, what its use lines bring, and which names a text speaks of.

For tools/trusted. A definition is a type, or a name that stands for a value. A law is a name whose type ends in a fact.
"""
import re

KINDS = ("Definitions", "Laws", "Machinery")  # of the files of specs/, in the order of Lib.antt
WORD = r"[^\s(){}.;,@\"«»]+"
SIGNED = re.compile(rf"^((?:(?:unfoldable|abbrev|axiom|pub) )*)({WORD})(?: \{{[^}}]*\}})? :(?=\s|$)")
TYPED = re.compile(rf"^(?:pub )?(?:record|data) ({WORD})")
MEMBER = re.compile(rf"^(?:pub )?((?:(?!:){WORD} )+):(?=\s|$)")
TOKEN = re.compile(rf'"(?:[^"\\]|\\.)*"|{WORD}|[(){{}}.;,@«»]|\s+')
FACTS = {"≡", "≢", "≤", "<", "≥", ">", "↔", "¬", "⊥", "∈"}
RUST_TYPE = re.compile(r"^(?:pub )?(?:struct|enum) (\w+)")
RUST_CALL = re.compile(r'^pub (?:extern "C" )?fn (\w+)')
CONVERSION = re.compile(r"^impl From<(.+)> for (\w+) \{$")
GIVES = re.compile(r"ghost from_gives = \{ λ (\S+) (\S+)\. (.*?) \};", re.S)


def conversion(lines):
    """A conversion, as the call that it is, S::from of a type: its name, and its head with what it gives as a clause of `result`."""
    source, struct = CONVERSION.match(lines[0]).groups()
    given, made, body = GIVES.search("\n".join(lines)).groups()
    said = re.sub(rf"(?<![\w.]){re.escape(made)}(?!\w)", "result", " ".join(body.split()))
    return f"{struct}::from({source})", f"pub fn {struct}::from({given}: {source}) -> {struct}\n    ensures {{ {said} }}\n"


def indent(line):
    return len(line) - len(line.lstrip())


def bare(line, mark="--"):
    """A line without its comment."""
    return re.sub(rf"(^|\s){mark}(\s.*)?$", "", line)


def ending(lines, i, hi, at):
    """Where the item ends that begins at line i, with all that stands further in."""
    j = i + 1
    while j < hi and (not lines[j].strip() or indent(lines[j]) > at):
        j += 1
    while not lines[j - 1].strip():
        j -= 1
    return j


class Named:
    """A definition or a law: where it stands, and its texts. A text is read in a scope of its own."""

    def __init__(self, home, name, first, statement, marks=()):
        self.home, self.name, self.first, self.marks = home, name, first, marks
        self.statement, self.body, self.spans, self.within = statement, [], [], []
        self.is_type, self.is_law, self.fields = False, False, {}

    def texts(self):
        return self.within + [self.statement] + ([] if self.is_law else self.body)

    def lines(self):
        """Its lines of code and of comment, those of the module blocks around it not counted."""
        code = note = 0
        for a, b in self.spans:
            for line in self.home.lines[a:b]:
                code, note = code + bool(bare(line, self.home.mark).strip()), note + line.strip().startswith(self.home.mark)
        return code, note


class Spec:
    """A file of specs/: what it declares, and what its use lines bring."""

    mark = "--"

    def __init__(self, path, text):
        self.crate = path.split("/")[0]
        self.path, self.lines, self.named, self.fields, self.uses, self.aliases = path, text.splitlines(), {}, {}, {}, {}
        self.kind = next((k for k in KINDS if self.lines[:1] == [f"-- {k}."]), None)
        self.block(0, len(self.lines), 0, [])

    def block(self, i, hi, at, within):
        lines, above, last = self.lines, None, None
        while i < hi:
            if not lines[i].strip():
                above, i = None, i + 1
                continue
            if lines[i].strip().startswith("--"):
                above, i = i if above is None else above, i + 1
                continue
            e = ending(lines, i, hi, at)
            text = [bare(x) for x in lines[i:e]]
            first, whole = text[0].strip(), "\n".join(text)
            signed, typed = SIGNED.match(first), TYPED.match(first)
            if first.startswith("use "):
                self.use(" ".join(whole.split()).removeprefix("use "))
            elif first.startswith("module "):
                k = next(k for k in range(i, e) if bare(lines[k]).rstrip().endswith("where")) + 1
                inner = [x for x in range(k, e) if bare(lines[x]).strip()]
                if inner:
                    self.block(k, e, indent(lines[inner[0]]), within + ["«" + " ".join(bare(x) for x in lines[i:k])])
                last = None
            elif typed:
                last = self.add(typed.group(1), i if above is None else above, i, e, whole, within)
                last.is_type = True
                self.members(last, i, e)
            elif signed:
                last = self.add(signed.group(2), i if above is None else above, i, e, whole, within, signed.group(1).split())
                last.is_law = not {"abbrev", "unfoldable"} & set(last.marks) and states(last)
            elif last is not None and not first.startswith("pub mod "):
                last.spans.append((i if above is None else above, e))
                last.body.append(whole if not first.startswith("unfolding") else "")
            above, i = None, e

    def add(self, name, above, i, e, text, within, marks=()):
        it = Named(self, name, i, text, marks)
        it.spans, it.within = [(above, e)], within
        self.named.setdefault(name, it)
        self.named.setdefault(name.strip("◌"), it)  # an operator
        return it

    def runs(self, some):
        """The lines of some definitions, joined where nothing but comments and blank lines stands between them."""
        out = []
        for a, b in sorted(span for it in some for span in it.spans):
            if out and not any(bare(x, self.mark).strip() for x in self.lines[out[-1][1] : a]):
                out[-1] = (out[-1][0], b)
            else:
                out.append((a + 1, b))
        return out

    def members(self, owner, i, e):
        """The head of a type is its statement; each field or constructor is a text of its own, and is found as the type is."""
        record = " record " in " " + self.lines[i]
        k = next(k for k in range(i, e) if re.search(r"\bwhere\s*$", bare(self.lines[k]))) + 1
        owner.statement = "\n".join(bare(x) for x in self.lines[i:k])
        inner = [x for x in range(k, e) if bare(self.lines[x]).strip()]
        while inner:
            stop = ending(self.lines, inner[0], e, indent(self.lines[inner[0]]))
            text = "\n".join(bare(x) for x in self.lines[inner[0]:stop])
            m = MEMBER.match(text.strip())
            if m:
                owner.body.append("«" + text.strip()[m.end():])
                for name in m.group(1).split():
                    (self.fields if record else self.named).setdefault(name, owner)
                if record:
                    owner.fields[owner.body[-1]] = set(m.group(1).split())
            inner = [x for x in inner if x >= stop]

    def use(self, text):
        path, brace, names = text.rstrip("; ").partition(".{")
        for part in names.rstrip("} ").split(",") if brace else []:
            old, _, new = part.strip().partition(" as ")
            self.uses[new or old] = self.uses[(new or old).strip("◌")] = (path, old)
        if not brace:
            path, _, alias = path.partition(" as ")
            self.aliases[alias or path.split(".")[-1]] = path


class Source(Spec):
    """A file of src/: its types, its public functions with their contracts, and what its use lines bring."""

    mark = "//"

    def __init__(self, path, text):
        self.crate = path.split("/")[0]
        self.path, self.lines, self.named, self.fields, self.uses, self.aliases = path, text.splitlines(), {}, {}, {}, {}
        self.kind, self.types, self.calls, self.passed, self.rust = None, {}, {}, {}, {}
        i, above = 0, None
        while i < len(self.lines):
            line = bare(self.lines[i], "//")
            if not line.strip():
                above = None if not self.lines[i].strip() else i if above is None else above
                i += 1
                continue
            typed, call = RUST_TYPE.match(line), RUST_CALL.match(line)
            if CONVERSION.match(line):
                e = i + 1
                while not self.lines[e - 1].startswith("}"):
                    e += 1
                name, text = conversion([bare(x, "//") for x in self.lines[i:e]])
                for inner in self.lines[i:e]:
                    if inner.startswith("    ghost use "):
                        self.use(inner.strip().removeprefix("ghost use "))
                it = self.calls[name] = Named(self, name, i, text)
                it.is_type, it.spans = False, [(i if above is None else above, e)]
                i, above = e, None
                continue
            use = re.match(r"^(ghost |pub )?use ([^;]+);", "\n".join(bare(x, "//") for x in self.lines[i : ending(self.lines, i, len(self.lines), 0) + 1]))
            if use and use.group(1) == "ghost ":
                self.use(" ".join(use.group(2).split()))
            elif use:
                where, _, some = " ".join(use.group(2).split()).partition("::{")
                for name in some.rstrip("} ").split(",") if some else [where.rpartition("::")[2]]:
                    self.rust[name.strip()] = path = where if some else where.rpartition("::")[0]
                    if use.group(1):
                        self.passed[name.strip()] = path
            elif typed or call:
                e = i + 1
                while e < len(self.lines) and not (self.lines[e - 1].startswith("}") or (typed and line.rstrip().endswith((";", "}")))):
                    e += 1
                text = "\n".join(bare(x, "//") for x in self.lines[i:e])
                it = Named(self, (typed or call).group(1), i, text)
                it.is_type, it.spans = bool(typed), [(i if above is None else above, e)]
                (self.types if typed else self.calls)[it.name] = it
                i = e - 1
            if not line.startswith("#["):
                above = None
            i += 1


def states(it):
    """Whether a type ends in a fact: an equation or the like, a type that speaks of values, or whatever is asked for."""
    end, depth, free = [], 0, set()
    text = SIGNED.sub("", it.statement.strip(), count=1)
    for names in re.findall(rf"\{{((?:{WORD} )+): Type", text):
        free |= set(names.split())
    for t in TOKEN.findall(text):
        depth += (t in "({") - (t in ")}")
        if t == "→" and depth == 0:
            end = []
        elif not t.isspace():
            end.append(t)
    if end[:1] == ["Type"]:
        return False
    plain = [t for k, t in enumerate(end) if end[k + 1 : k + 2] != ["."]]
    return bool(FACTS & set(end)) or end in [[f] for f in free] or any(re.match(r"[a-z0-9\[]", t) for t in plain)


def names(text, constructors, bound=()):
    """The names that a text speaks of and does not bind itself, and those that it binds to its end. A name that is bound inside
    brackets is bound to the end of those."""
    text = text.strip()
    toks, scopes, out, k = TOKEN.findall(text), [set(bound)], [], 0
    local = {m.group(2) for m in map(SIGNED.match, (x.strip() for x in text.split("\n")[1:])) if m}
    clause, left, begins = not text.startswith("«") and not SIGNED.match(text) and not TYPED.match(text), False, True
    scopes[0] |= local

    def ahead(pattern):
        return re.match(pattern, "".join(toks[k + 1 : k + 80]))

    while k < len(toks):
        t = toks[k]
        begins = begins or "\n" in t
        if t.isspace() or t[0] in '";,@«»':
            k += 1
            continue
        if begins and clause and len(scopes) == 1 and (k == 0 or t in local):
            left = True  # the left side of a clause: what is no constructor there is bound
        begins = False
        if t in "({":
            binder = ahead(rf"((?:(?!λ){WORD}\s+)+?):\s")
            fresh = set(binder.group(1).split()) if binder and "=" not in binder.group(1).split() else set()
            scopes[-1] |= fresh
            scopes.append(fresh)
        elif t in ")}":
            scopes = scopes[:-1] or [set()]
        elif t == "=" and left and len(scopes) == 1:
            left = False
        elif left:
            (out.append if t in constructors else scopes[0].add)(t)
        elif t == "λ":
            binder = ahead(rf"\s*((?:{WORD}\s*)+)\.")
            scopes[-1] |= set(binder.group(1).split()) if binder else set()
        elif t == "let":
            scopes[-1].add(ahead(rf"\s*({WORD})").group(1))
        elif t == ".":
            k += bool(ahead(WORD))  # the name of a field
        elif any(t in s for s in scopes) or (len(scopes) > 1 and ahead(r"\s*=\s")):
            pass  # bound, or a field of a record that is made
        elif ahead(rf"\.{WORD}"):
            out.append(t + "." + toks[k + 2])
            k += 2
        else:
            out.append(t)
        k += 1
    return out, scopes[0]
