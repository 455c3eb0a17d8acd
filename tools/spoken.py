"""Follows names through the rooms: what a definition, a law, a contract or a page speaks of, in specs/ and src/.

For tools/trusted. A definition is read with its body; of a law its statement is read, and its proof is not.
"""
import pathlib
import re

from antt import Source, Spec, names

HOUSE = re.compile(r"^Rattle\.(\w+)\.(specs|proofs)\.(.+)$")


class Tree:
    def __init__(self, root):
        self.root, self.files, self.wrong = root, {}, set()
        rows = (root / "crates.txt").read_text(encoding="utf-8").splitlines()
        self.crates = [r.split()[0].rstrip(":") for r in rows if ":" in r.split("#")[0]]

    def file(self, name):
        """A file of crates/ by its name there, read; nothing where there is none."""
        path = self.root / "crates" / name
        if name not in self.files:
            make = Spec if path.suffix == ".antt" else Source
            self.files[name] = make(name, path.read_text(encoding="utf-8")) if path.is_file() else None
        return self.files[name]

    def specs(self, crate, folder="specs"):
        """The files of a room's specs/, in the order of its Lib.antt; or those of its proofs/ that say what they hold, and so are
        handed up as well: the laws that an edit of a definition breaks, which could not be tried if they stood in specs/."""
        lib = self.file(f"{crate}/{folder}/Lib.antt")
        mods = re.findall(r"^pub mod (\S+)", "\n".join(lib.lines), re.M) if lib else []
        found = [f for f in (self.file(f"{crate}/{folder}/{m.replace('.', '/')}.antt") for m in mods) if f]
        return found if folder == "specs" else [f for f in found if f.kind]

    def sources(self, crate):
        return [self.file(str(p.relative_to(self.root / "crates"))) for p in sorted((self.root / "crates" / crate / "src").rglob("*.rt"))]

    def types(self, home, text):
        """The types of src/ that a text of a file there names."""
        out = []
        for path, name in set(re.findall(r"\b((?:\w+::)*)([A-Z]\w*)", text)):
            at = (path or home.rust.get(name, "")).split("::")
            if name in home.types:
                out.append(home.types[name])
            elif at[0]:
                out.append(self.type(at[0] if at[0] in self.crates else home.crate, at, name))
        return out

    def type(self, crate, near, name):
        """A type of a room's src/, from one of the files named if there are several."""
        found = [f for f in self.sources(crate) if name in f.types]
        return min(found, key=lambda f: pathlib.Path(f.path).stem not in near).types[name] if found else None

    def lookup(self, path, name):
        """A name by the path of a use line; nothing where it belongs to the kit."""
        house = HOUSE.match(path)
        if not house or house.group(1) not in self.crates:
            return None
        crate, folder, steps = house.group(1), house.group(2), house.group(3).split(".")
        if folder == "specs" and steps[0] == "contracts":  # made by the kit of a type or a contract
            return None
        if folder == "specs" and steps[0] == "declared":
            steps = [s for s in steps[1:] if s != "TheVariants"]
            it = self.type(crate, steps[:-1] or ["lib"], steps[-1])
        else:
            spec = self.file(f"{crate}/{folder}/{'/'.join(steps)}.antt")
            if spec is None and folder == "proofs":  # made by the kit, of a call or a type
                return None
            it = spec.named.get(name) if spec else None
        if it is None:
            self.wrong.add(f"there is no {name} in {path}")
        return it

    def resolve(self, home, token):
        if "." in token:
            head, _, name = token.partition(".")
            return self.lookup(home.aliases[head], name) if head in home.aliases else self.resolve(home, head)
        if token in home.named:
            return home.named[token]
        return self.lookup(*home.uses[token]) if token in home.uses else None

    def constructors(self, home):
        out = {n for n, it in home.named.items() if it.is_type and n != it.name}
        for new, (path, old) in home.uses.items():
            it = self.lookup(path, old)
            if it and it.is_type and old != it.name:
                out.add(new)
        return out | {n for n, (path, _) in home.uses.items() if path.endswith(".TheVariants")}

    def spoken(self, it):
        """What a definition or a law speaks of, a proof left out."""
        if isinstance(it.home, Source):
            return self.types(it.home, it.statement)
        constructors, bound, out = self.constructors(it.home), set(), []
        for text in it.texts():
            found, scope = names(text, constructors, bound)
            out += [self.resolve(it.home, t) for t in found]
            if text in it.within or (it.is_type and text is it.statement):
                bound = scope
            if it.is_type and text in it.fields:
                bound = bound | it.fields[text]
        return out

    def open_calls(self, crate):
        """The public functions of a library's lib.rt and those that it passes on; whatever is exported to C; and each conversion."""
        files = self.sources(crate)
        lib = self.file(f"{crate}/src/lib.rt")
        if lib is None:
            return []
        out = list(lib.calls.values())
        for name, path in lib.passed.items():
            out += [f.calls[name] for f in files if name in f.calls and f is not lib and pathlib.Path(f.path).stem in path.split("::")]
        return out + [c for f in files if f is not lib for c in f.calls.values() if 'extern "C"' in c.statement or "::from(" in c.name]

    def contract(self, call):
        """What a call's contract speaks of, and the types of its arguments and answer."""
        head = call.statement.partition("\n{")[0]
        signature, *clauses = re.split(r"^\s+(?:requires|ensures)\*?(?: \w+)? (?=\{)", head, flags=re.M)
        given = set(re.findall(r"(\w+):", signature)) | {"result"}
        found = [self.resolve(call.home, t) for c in clauses for t in names("«" + c, set(), given)[0]]
        return [it for it in found if it] + self.types(call.home, signature)

    def page(self, name):
        """What a page names of specs/, as tools/trace reads it: a file, and then names of that file."""
        text, home, stop, out = (self.root / name).read_text(encoding="utf-8"), None, 0, []
        for m in re.finditer(r"`([^`]+)`", text):
            if text[stop : m.start()].strip() not in ("", ",") or "/" in m.group(1):
                home = None
            stop = m.end()
            if re.match(r"^\w+/(?:specs|proofs)/\S+\.antt$", m.group(1)):
                home = self.file(m.group(1))
            elif home is not None:
                out.append(home.named.get(m.group(1)) or home.fields.get(m.group(1)))
        return [it for it in out if it]

    def reach(self, start):
        """All that some names speak of, one through the other, themselves among them; machinery is not looked into."""
        seen, todo = {}, list(start)
        while todo:
            it = todo.pop()
            if it is not None and it not in seen:
                seen[it] = True
                todo += [] if it.home.kind == "Machinery" else self.spoken(it)
        return seen
