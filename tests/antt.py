"""The declarations of crates/*/specs, and what each of them names: what tests/guarantees.py and tests/believe.py know of antt.

A declaration is a `pub data`, `pub record`, `abbrev pub` or `unfoldable pub` at the start of a line, with the comment right above it; a
line of another kind is a fault. A word of it counts as a name of whatever is called so in the file or is brought by a `use` line, even
where it is a variable, a label or a field there. Names of the kit's library mean nothing here.
"""

import functools
import pathlib
import re

ROOT = pathlib.Path(__file__).resolve().parent.parent
HEAD = re.compile(r"(pub data|pub record|abbrev pub|unfoldable pub) (\S+)")
USE = re.compile(r"^use ([^\n{]*(?:\{[^}]*\})?)$", re.M)
# the first line of a field or of a constructor
PART = {"pub record": re.compile(r"^  pub (\S+) :", re.M), "pub data": re.compile(r"^  (\S+) :", re.M)}
# the calls' own definitions: the contracts of the public functions are equations with them
CALLS = {
    "bundle/Checks": ["refusal"],
    "bundle/Exports": ["name_part", "name_call", "index_call"],
    "loader/Load": ["load"],
    "engine/Run": ["run_from"],
    "plain/Run": ["plain_run"],
}


class Fault(Exception):
    pass


class Item:
    """One declaration: crate, module, name; its lines with the comment above it, and the line it starts at."""

    def __init__(self, module, kind, name, start, lines):
        self.module, self.kind, self.name, self.start, self.lines = module, kind, name, start, lines
        text = "\n".join(re.sub(r"(^|\s)--.*", "", re.sub(r'"[^"]*"', "", line)) for line in lines)
        self.code = text[HEAD.search(text).start() :]
        # what stands before its fields, constructors or clauses; and the type of each field or constructor
        self.head, *pieces = PART[kind].split(self.code) if kind in PART else re.split(r"\n(?=\S)", self.code)
        self.inner = dict(zip(pieces[::2], pieces[1::2])) if kind in PART else {}

    def __repr__(self):
        return f"{self.module}.{self.name}"

    def count(self, comments=True):
        return sum(1 for line in self.lines if line.strip() and (comments or not line.strip().startswith("--")))

    def has(self, line):
        """Whether a line may be one of its own: a field, a constructor, a clause, or the rest of one."""
        if line.startswith(" "):
            return self.kind not in PART or line.startswith("   ") or bool(PART[self.kind].match(line))
        left = re.split(r" =(?: |$)", line)[0].split()
        parts = self.name.split("◌")
        return self.kind not in PART and ":" not in left and parts[0] in ("", left[0]) and all(part in left for part in parts if part)


class Module:
    """One file of specs: its declarations by name, what its `use` lines bring, and its first comment."""

    def __init__(self, crate, name, path, text):
        self.crate, self.name, self.path, self.text = crate, name, path, text
        lines = text.split("\n")
        heads = [i for i, line in enumerate(lines) if HEAD.match(line)]
        starts = []
        for i in heads:
            while i > 0 and re.match(r"--|infix", lines[i - 1]):
                i -= 1
            starts.append(i)
        self.items = {}
        for head, start, end in zip(heads, starts, [*starts[1:], len(lines)]):
            while not lines[end - 1].strip() or lines[end - 1].startswith("--"):
                end -= 1
            kind, named = HEAD.match(lines[head]).groups()
            self.items[named] = Item(self, kind, named, head + 1, lines[start:end])
        self.brought, self.aliases = uses(path, text)
        self.look()

    def __repr__(self):
        return f"{self.crate}/{self.name}"

    def look(self):
        """A line of no known kind is a fault, so that no declaration is passed over; so is a `use` of neither specs nor the kit, or after a declaration."""
        first = min((self.text.index("\n".join(i.lines)) for i in self.items.values()), default=len(self.text))
        for use in USE.finditer(self.text):
            if not re.match(r"(Prim|mathlib)\.|Rattle\.\w+\.specs\.", use[1]):
                raise Fault(f"{self.path}: {use[0]}: neither of the kit's library nor of specs")
            if use.start() > first:
                raise Fault(f"{self.path}: {use[0]}: after a declaration")
        item = None
        for number, line in enumerate(USE.sub(lambda use: "\n" * use[0].count("\n"), self.text).split("\n"), 1):
            if HEAD.match(line):
                item = self.items[HEAD.match(line)[2]]
            elif line.strip() and not re.match(r" *--|infix[lr]? ", line) and not (item and item.has(line)):
                raise Fault(f"{self.path}:{number}: a line of a kind that tests/antt.py does not know: {line}")

    def called(self, name):
        """The declarations of that name, or with a constructor of that name."""
        return [i for i in self.items.values() if i.name == name or (i.kind == "pub data" and name in i.inner)]

    def own(self):
        """The files of its own crate that it uses."""
        return {used[1] for used in [*self.brought.values(), *self.aliases.values()] if used[0] == self.crate}

    def first_comment(self):
        lines = []
        for line in self.text.split("\n"):
            if not line.startswith("--"):
                break
            lines.append(line.lstrip("- "))
        return " ".join(lines)


module_of = functools.cache(Module)


@functools.cache
def uses(path, text):
    """What the `use` lines of a file bring out of specs: names, and other names of whole files.

    Rattle.crate.specs.Module.{A, B as C}, or Rattle.crate.specs.Module as m; the crate std is the kit's library."""
    brought, aliases = {}, {}
    for what in USE.findall(text):
        what = re.sub(r"\s+", " ", what).strip()
        found = re.fullmatch(r"Rattle\.(?!std\.)(\w+)\.specs\.(.+?)(?:\.\{(.*)\}| as (\S+))", what)
        if not found:
            if re.match(r"Rattle\.(?!std\.)\w+\.specs\b", what):
                raise Fault(f"{path}: use {what}: not understood")
            continue
        crate, module, names, alias = found.groups()
        if alias and aliases.setdefault(alias, (crate, module)) != (crate, module):
            raise Fault(f"{path}: two `use` lines bring {alias}")
        for name in (names or "").split(","):
            if name.strip():
                old, _, new = name.strip().partition(" as ")
                if brought.setdefault(new or old, (crate, module, old)) != (crate, module, old):
                    raise Fault(f"{path}: two `use` lines bring {new or old}")
    return brought, aliases


class Specs:
    """All of crates/*/specs, in reading order: a crate after those that it stands on, a file after those that it uses."""

    def __init__(self, texts=None):
        texts = read_specs() if texts is None else texts
        self.modules = {}
        for path, text in texts.items():
            _, crate, _, rest = path.split("/", 3)
            name = rest.removesuffix(".antt").replace("/", ".")
            if name != "Lib":
                self.modules[crate, name] = module_of(crate, name, path, text)
            elif not re.fullmatch(r"((--.*|pub mod \S+)?\n)*", text):
                raise Fault(f"{path}: a line that is no 'pub mod'")
        self.order = []
        for crate in crates():
            self.in_order(crate, texts.get(f"crates/{crate}/specs/Lib.antt", ""))

    def in_order(self, crate, lib):
        waiting = [m for m in re.findall(r"^pub mod (\S+)", lib, re.M) if (crate, m) in self.modules]
        waiting += sorted(m for c, m in self.modules if c == crate and m not in waiting)
        while waiting:
            ready = [m for m in waiting if not self.modules[crate, m].own() & set(waiting)]
            if not ready:
                raise Fault(f"crates/{crate}/specs: {', '.join(waiting)} use each other")
            self.order.append(self.modules[crate, ready[0]])
            waiting.remove(ready[0])

    def find(self, crate, module, name, whence):
        """What a name of another file stands for: declarations, or a type that is declared in code, by its name."""
        if module.startswith("declared."):
            return [f"{crate}::{module.removeprefix('declared.').removesuffix('.TheVariants').replace('.', '::')}"]
        if (crate, module) not in self.modules:
            raise Fault(f"{whence.path}: there is no {crate}/{module}")
        found = self.modules[crate, module].called(name)
        if not found:
            raise Fault(f"{whence.path}: {crate}/{module} has no {name}")
        return found

    def scope(self, module):
        """Each name of a file's scope, and each part of a name like ◌when◌: what it may stand for."""
        names = {}
        for item in module.items.values():
            for name in [item.name, *(item.inner if item.kind == "pub data" else [])]:
                names.setdefault(name, []).append(item)
        for name, target in module.brought.items():
            names.setdefault(name, []).extend(self.find(*target, module))
        for name in [n for n in names if "◌" in n]:
            for part in filter(None, name.split("◌")):
                names.setdefault(part, []).extend(names[name])
        return names

    def named(self, module, text):
        """What some text of a file may name: declarations, and types that are declared in code, by their names."""
        scope, found = self.scope(module), []
        for word in re.findall(r"[^\s(){};,]+", text):
            before = None
            for part in word.split("."):
                if part and before in module.aliases:
                    found += self.find(*module.aliases[before], part, module)
                else:
                    found += scope.get(part, [])
                before = part
        return found

    def names(self, item, signature_only=False):
        """What a declaration names, or its signature."""
        return self.named(item.module, item.head if signature_only else item.code)


def crates():
    """The crates from the ground up, as crates.txt has them; a word between the name and the colon says what is built."""
    return re.findall(r"^(\w+)(?: \w+)?:", (ROOT / "crates.txt").read_text(), re.M)


def read_specs():
    return {str(p.relative_to(ROOT)): p.read_text() for p in sorted(ROOT.glob("crates/*/specs/**/*.antt"))}
