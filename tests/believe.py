#!/usr/bin/env python3
"""Which definitions a reader has to believe, and whether docs/TRUST.md lists them.

    tests/believe.py          holds the lists of docs/TRUST.md to the definitions
    tests/believe.py --list   prints them by name: from the ground up, a definition before its use
    tests/believe.py --text   prints them whole, in the same order
    tests/believe.py --write  writes the lists of docs/TRUST.md anew; what it says of each file stays

To believe are the demands' statements (the records `Demand..`), what the contracts of the calls name, and whatever a definition to believe
names. It stops at the calls' own definitions: the theorems say what these do, the contracts that the code equals them; and at definitions
that a field of the demands determines. Types that are declared in code are named only, and the kit's library is not followed. A second list
has what the closing records name beyond that: nobody has to believe it. Who calls from C reads crates/answers too. What the contract of the
program's own function names is in none of these lists.

Then the same is asked of pages, definitions and sources that are wrong, each in one way; the test fails if one of them passes.
"""

import re
import sys

import antt
import contracts

PAGE = "docs/TRUST.md"
DEMANDS = "crates/guarantees/specs/Demands.antt"
CLOSING = "crates/guarantees/specs/Closing.antt"
# lines of definitions with the comments above and in them, which `--text` prints; a reader can be asked to believe fewer: for the demands,
# and in all. The 37 lines between are those of refusals/Numbers: a call is refused by a name, and its contract says the name's number
MOST = 1350
MOST_IN_ALL = 1387
# definitions that a field of the demands determines, wherever the demands name them
FIXED = {
    "wire/Wire": {"big_endian": "Demand2.big_endian"},
    "calculus/Machine": {"stop_number": "Demand3.stop_numbers"},
    "nodes/Records": {"children_of": "Demand2.reads_children"},
    "table/Slots": {"room": "Demand1.room_is"},
    "frames/Frames": {"frame_room": "Demand1.job_room_is", "job_words_at": "Demand1.job_words"},
}


class Closure:
    """The definitions to believe and those of the closing records, in reading order; the calls and fixed definitions where both stop, and
    the declared types that are named."""

    def __init__(self, texts):
        self.specs = specs = antt.Specs({p: t for p, t in texts.items() if re.match(r"crates/\w+/specs/.*\.antt", p)})
        sources = contracts.Sources(texts)
        self.calls = [self.definition(module, name) for module, names in antt.CALLS.items() for name in names]
        self.fixed = {self.definition(module, name): field for module, names in FIXED.items() for name, field in names.items()}
        self.stops = {*self.calls, *self.fixed}
        for item, field in self.fixed.items():
            self.determines(field, item)
        records = [i for m in specs.order for i in m.items.values() if i.kind == "pub record"]
        demanded = self.reached([i for i in records if i.name.startswith("Demand")])
        read = demanded | self.reached([i for call in contracts.CALLED for i in sources.named(call, specs)])
        more = self.reached([i for i in records if i.module.path == CLOSING]) - read
        words = [i for m in specs.order if m.crate == "answers" for i in m.items.values()]
        for_c = self.reached([*words, *(i for call in contracts.FOR_C for i in sources.named(call, specs))]) - read - more
        known = read | more | for_c
        self.declared = sorted(i for i in known if isinstance(i, str))
        self.calls = [c for c in self.calls if c in known]
        self.fixed = {i: field for i, field in self.fixed.items() if i in known}
        self.files, self.closing, self.for_c, self.demanded = (self.of_files(items - self.stops) for items in (read, more, for_c, demanded))
        self.outside = [m for m in specs.order if set(m.items.values()) - known - self.stops]

    def definition(self, module, name):
        found = self.specs.modules.get(tuple(module.split("/")))
        if not found or name not in found.items:
            raise antt.Fault(f"{module} has no {name}, which is one of CALLS of tests/antt.py or FIXED of tests/believe.py")
        return found.items[name]

    def determines(self, field, item):
        """The statement of a field of the demands comes to name a definition; a fault where it does not."""
        record, name = field.split(".")
        record = self.definition("guarantees/Demands", record)
        if name not in record.inner:
            raise antt.Fault(f"{DEMANDS} has no {field}, which is to determine {item}")
        if item not in self.reached(self.specs.named(record.module, record.inner[name])):
            raise antt.Fault(f"{DEMANDS}: {field} does not determine {item}: what it says does not name it")

    def reached(self, roots):
        """What is named from some declarations on: declarations, and types that are declared in code."""
        seen, waiting = set(), list(roots)
        while waiting:
            item = waiting.pop()
            if item not in seen:
                seen.add(item)
                waiting += [] if isinstance(item, str) else self.specs.names(item, signature_only=item in self.stops)
        return seen

    def of_files(self, items):
        """Each file with those of its declarations that are among some."""
        files = {m: [i for i in m.items.values() if i in items] for m in self.specs.order}
        return {m: found for m, found in files.items() if found}

    def lines(self, comments=True):
        return sum(i.count(comments) for items in self.files.values() for i in items)

    def lines_of_demands(self):
        return sum(i.count() for items in self.demanded.values() for i in items)

    def more_lines(self):
        return sum(i.count() for items in self.closing.values() for i in items)

    def rows(self, files):
        """The rows of a list: file, of it, lines."""
        rows = {}
        for module, items in files.items():
            rest = [i for i in module.items.values() if i not in items]
            of_it = listed(items) if len(items) < len(rest) else "all but " + listed(rest) if rest else "all"
            rows[str(module)] = (of_it, str(sum(i.count() for i in items)))
        return rows


def listed(items):
    return ", ".join(f"`{i.name}`" for i in items)


def first_sentence(module):
    return re.split(r"(?<=[a-z)`])[.:] ", module.first_comment() + " ")[0].rstrip(". ")


class Page:
    """The lists of docs/TRUST.md, each between two comments; a row's last cell is what the page says of the file."""

    def __init__(self, text):
        self.text = text
        self.lists = {}
        for name in ("read", "closing", "c", "inner", "examples"):
            rows = {}
            for row in self.rows(name):
                file, *cells = [c.strip() for c in row.split("|")[1:-1]]
                if file in rows:
                    raise antt.Fault(f"{PAGE}: {file} stands twice in the list '{name}'")
                rows[file] = cells
            self.lists[name] = rows

    def rows(self, name):
        return [line for line in self.block(name).splitlines() if line.startswith("| ") and not line.startswith("| File")]

    def line(self, name, file):
        return self.text[: self.text.index(f"| {file} |", self.text.index(f"<!-- believe: {name} -->"))].count("\n") + 1

    def block(self, name):
        found = re.findall(rf"<!-- believe: {name} -->\n(.*?)<!-- believe: end -->", self.text, re.S)
        if len(found) != 1:
            raise antt.Fault(f"{PAGE}: {len(found)} lists between '<!-- believe: {name} -->' and '<!-- believe: end -->'")
        return found[0]

    def with_block(self, name, body):
        return self.text.replace(f"<!-- believe: {name} -->\n{self.block(name)}", f"<!-- believe: {name} -->\n{body}")

    def said(self, name, module):
        for rows in [self.lists[name], *self.lists.values()]:
            if str(module) in rows and rows[str(module)][-1]:
                return rows[str(module)][-1]
        return first_sentence(module)


def written(page, closure):
    """The page with its lists as the definitions have them."""
    ends = {
        "read": f"\nIn all {closure.lines():,} lines, {closure.lines(comments=False):,} without the comments. "
        f"The demands come to {closure.lines_of_demands():,} of them; the rest is what the contracts of the calls name beyond these.\n",
        "closing": f"\nIn all {closure.more_lines():,} lines more.\n",
    }
    for name, files in (("read", closure.files), ("closing", closure.closing), ("c", closure.for_c)):
        rows = closure.rows(files)
        body = "| File | Of it | Lines | What it is |\n|---|---|---|---|\n"
        body += "".join(f"| {m} | {rows[str(m)][0]} | {rows[str(m)][1]} | {page.said(name, m)} |\n" for m in files)
        page = Page(page.with_block(name, body + ends.get(name, "")))
    names = [f"`{c.module}.{c.name}`" for c in closure.calls]
    page = Page(page.with_block("calls", ", ".join(names) + "\n"))
    names = [f"`{i.module}.{i.name}` (`{field}`)" for i, field in closure.fixed.items()]
    page = Page(page.with_block("fixed", ", ".join(names) + "\n"))
    page = Page(page.with_block("declared", ", ".join(f"`{d}`" for d in closure.declared) + "\n"))
    examples = [m for m in closure.outside if str(m) in page.lists["examples"]]
    for name, modules in (("inner", [m for m in closure.outside if m not in examples]), ("examples", examples)):
        body = "| File | What it is |\n|---|---|\n" + "".join(f"| {m} | {page.said(name, m)} |\n" for m in modules)
        page = Page(page.with_block(name, body))
    return page.text


def differing(page, name, wanted):
    """Where a list of the page has other rows than it should."""
    found, listed = [], page.lists[name]
    for file, (of_it, lines) in wanted.items():
        if file not in listed:
            found.append(f"{PAGE}: {file} is to be read ({of_it}; {lines} lines), and is not in the list '{name}'")
        elif listed[file][:2] != [of_it, lines]:
            said = "; ".join(listed[file][:2])
            place = f"{PAGE}:{page.line(name, file)}"
            found.append(f"{place}: of {file} are to be read: {of_it}; {lines} lines. The list '{name}' says: {said}")
    for file in listed:
        if file not in wanted:
            found.append(f"{PAGE}:{page.line(name, file)}: nothing of {file} is to be read, and it is in the list '{name}'")
    return found


def faults(text, texts):
    """What is wrong with the page, a line each."""
    found = []
    closure, page = Closure(texts), Page(text)
    if closure.lines_of_demands() >= MOST:
        found.append(f"{DEMANDS}: the demands come to {closure.lines_of_demands():,} lines; they have to be fewer than {MOST:,}")
    if closure.lines() >= MOST_IN_ALL:
        found.append(f"{DEMANDS}: {closure.lines():,} lines are to be believed; they have to be fewer than {MOST_IN_ALL:,}")
    for name, files in (("read", closure.files), ("closing", closure.closing)):
        found += differing(page, name, closure.rows(files))
    outside = [str(m) for m in closure.outside]
    for file in outside:
        where = [name for name in ("inner", "examples") if file in page.lists[name]]
        if len(where) != 1:
            found.append(f"{PAGE}: {file} has definitions that nobody has to read, and stands in {len(where)} of the lists 'inner' and 'examples'")
    for name in ("inner", "examples"):
        for file in page.lists[name]:
            if file not in outside:
                found.append(f"{PAGE}:{page.line(name, file)}: {file} is in the list '{name}', and has no definitions that nobody has to read")
    if not found and written(page, closure) != text:
        found.append(f"{PAGE}: the lists are in another order or form; tests/believe.py --write writes them")
    return found


def wrong(text, texts):
    """Pages, definitions and sources that are wrong in one way: a label, the page, the texts that differ, and a part of what is to be found."""
    closure, page = Closure(texts), Page(text)
    read, closing, inner, examples = ([f"{line}\n" for line in page.rows(name)] for name in ("read", "closing", "inner", "examples"))

    # the page
    for name, rows in (("read", read), ("closing", closing)):
        yield f"a file left out of '{name}'", text.replace(rows[0], ""), {}, f"is not in the list '{name}'"
        yield f"another count in '{name}'", text.replace(rows[0], re.sub(r"\| \d+ \|", "| 0 |", rows[0])), {}, f"The list '{name}' says"
        yield f"no such file in '{name}'", text.replace(rows[0], rows[0] + "| wire/No | all | 3 | no |\n"), {}, "nothing of wire/No"
        yield f"two files of '{name}' in the other order", text.replace(rows[0] + rows[1], rows[1] + rows[0]), {}, "another order"
    yield "another sum", re.sub(r"In all [\d,]+ lines more", "In all 1 lines more", text), {}, "another order or form"
    yield "an inner file left out", text.replace(inner[0], ""), {}, "stands in 0"
    yield "an inner file that is an example too", text.replace(examples[0], examples[0] + inner[0]), {}, "stands in 2"
    whole = next(m for m in closure.files if m not in closure.outside)
    yield "a file wrongly called inner", text.replace(inner[0], inner[0] + f"| {whole} | no |\n"), {}, f"{whole} is in the list 'inner'"

    # the definitions
    last = "\n".join(closure.files[whole][-1].lines)
    yield "a definition that grew", text, {whole.path: whole.text.replace(last, last + "\n   -- one")}, f"of {whole} are to be read"
    demands = texts[DEMANDS]
    known = {i for files in (closure.files, closure.closing) for items in files.values() for i in items} | closure.stops
    file, name = next((m, i.name) for m in closure.outside for i in m.items.values() if i not in known)
    path, record = f"Rattle.{file.crate}.specs.{file.name}", "\npub record Demand0 : Type 0 where\n  pub new : "
    for label, use, new in (
        ("names a definition more", f".{{{name} as more}}", "more"),
        ("names one right after a dot", f".{{{name} as more}}", "(λ x.more)"),
        ("names one by the file", " as other", f"other.{name}"),
        ("names one that is a variable too", f".{{{name} as more}}", "(more : ℕ) → more ≡ more"),
    ):
        yield f"a demand that {label}", text, {DEMANDS: f"use {path}{use}\n{demands}{record}{new}\n"}, f"{file} "
    new = f"use {path}.{{{name} as more}}\n{texts[CLOSING]}" + record.replace("Demand0", "Closing0") + "more\n"
    yield "a closing record that names a definition more", text, {CLOSING: new}, f"{file} "
    answers = "crates/answers/specs/Words.antt"
    new = f"use {path}.{{{name} as more}}\n{texts[answers]}\nabbrev pub other : Type 0\nother = more\n"
    yield "a definition for C that names one more", text, {answers: new}, "another order or form"
    yield "a field that determines a definition is gone", text, {DEMANDS: demands.replace("pub room_is :", "pub room :")}, "is to determine"
    for other in ("ℕ", "JobRoomIs"):
        new = demands.replace("pub room_is : RoomIs", f"pub room_is : {other}")
        yield f"{other} for a statement that determines a definition", text, {DEMANDS: new}, "Demand1.room_is does not determine table/Slots"
    new = record + "ℕ\n" + "  -- more\n" * (MOST - closure.lines_of_demands())
    yield "demands that have too many comments", text, {DEMANDS: demands + new}, "the demands come to"

    # what the contracts of the calls name
    numbers = next(m for m in closure.files if m not in closure.demanded)
    row = next(row for row in read if row.startswith(f"| {numbers} |"))
    yield f"{numbers} called inner", text.replace(row, "").replace(inner[0], inner[0] + f"| {numbers} | no |\n"), {}, f"{numbers} is to be read"
    yield "a type left out", text.replace("`refusals::Refusal`, ", ""), {}, "another order or form"
    last = "\n".join(closure.files[numbers][-1].lines)
    new = last.replace(" = ", " = more ", 1)
    new = f"use {path}.{{{name} as more}}\n{numbers.text.replace(last, new)}"
    yield f"a definition of {numbers} that names one more", text, {numbers.path: new}, f"{file} "
    new = numbers.text.replace(last, last + "\n   -- more" * (MOST_IN_ALL - closure.lines()))
    yield f"too many comments in {numbers}", text, {numbers.path: new}, "lines are to be believed"
    check, _, contract = contracts.Sources(texts).item("bundle::check")
    new = texts[check].replace(contract, contract.replace("answer_of result", "answer_of (more result)", 1))
    new = new.replace("ghost use ", f"ghost use {path}.{{{name} as more}};\nghost use ", 1)
    yield "a contract that names a definition more", text, {check: new}, f"{file} "
    new = texts[check].replace(contract, contract.replace("Result<(), Refusal>", "Result<Outline, Refusal>", 1))
    yield "a call that answers another type", text, {check: new}, "another order or form"

    # of another kind
    for new in ("abbrev more : ℕ", "pub more : ℕ", "pub codata More : Type 0", "module _ where", "pub use Rattle.std.specs.Prelude.{drop}"):
        yield f"'{new}'", text, {DEMANDS: f"{demands}\n{new}\n"}, "of a kind that tests/antt.py does not know"
    new = demands.replace("  pub room_is :", "  room_is :")
    yield "a field that is not public", text, {DEMANDS: new}, "of a kind that tests/antt.py does not know"
    yield "a `use` of proofs", text, {DEMANDS: demands.replace("use ", "use Rattle.table.proofs.Slots.{more}\nuse ", 1)}, "nor of specs"
    yield "a `use` after a declaration", text, {DEMANDS: f"{demands}\nuse {path}.{{{name}}}\n"}, "after a declaration"
    yield "a name brought twice", text, {DEMANDS: f"use {path}.{{{name} as room}}\n{demands}"}, "two `use` lines bring room"
    lib = "crates/guarantees/specs/Lib.antt"
    yield "a declaration beside the files", text, {lib: texts[lib] + "abbrev pub more : ℕ\nmore = 0\n"}, "a line that is no 'pub mod'"


def print_texts(closure, texts):
    """All that is to be read, whole."""
    sources = contracts.Sources(texts)
    for title, files in (("", closure.files), ("of the closing records", closure.closing), ("for who calls from C", closure.for_c)):
        if title:
            print(f"\n-- ======== {title}")
        for module, items in files.items():
            print(f"\n-- ==== {module}\n")
            print("\n\n".join("\n".join(i.lines) for i in items))
    print("\n-- ======== the contracts of the calls, and what brings the definitions that they name")
    for path, names in sources.contracts().items():
        print(f"\n-- ==== {path}\n")
        print("\n".join(sources.brings(path)))
        print("\n".join(f"\n{sources.contract(name)}" for name in names))
    print("\n-- ======== types that are declared in code\n")
    print("\n".join(sources.declared(name) for name in closure.declared))


def print_lists(closure):
    """All that is to be read, by name."""
    for title, files in (("", closure.files), ("\nof the closing records, beyond that\n", closure.closing)):
        print(title, end="")
        for module, items in files.items():
            print(f"{module}: {sum(i.count() for i in items)} lines")
            print("".join(f"    {i.name} {i.count()}\n" for i in items), end="")
    print("\nthe calls, whose text nobody has to believe\n" + "\n".join(f"    {c}" for c in closure.calls))
    print("\nwhat a field of the demands determines\n" + "\n".join(f"    {i}: {field}" for i, field in closure.fixed.items()))
    print("\ntypes that are declared in code\n" + "\n".join(f"    {d}" for d in closure.declared))
    count = f"{closure.lines():,} lines, {closure.lines(comments=False):,} without the comments; {closure.lines_of_demands():,} for the demands"
    print(f"\n{count}; {closure.more_lines():,} lines of the closing records")


def main(arguments):
    texts = antt.read_specs() | contracts.read_sources()
    text = (antt.ROOT / PAGE).read_text()
    closure = Closure(texts)
    if arguments == ["--write"]:
        (antt.ROOT / PAGE).write_text(written(Page(text), closure))
    elif arguments == ["--text"]:
        print_texts(closure, texts)
    elif arguments == ["--list"]:
        print_lists(closure)
    elif arguments:
        raise antt.Fault(f"not understood: {' '.join(arguments)}")
    else:
        if found := faults(text, texts):
            raise antt.Fault("\n".join(found))
        tried = 0
        for label, other, changed, part in wrong(text, texts):
            try:
                found = "\n".join(faults(other, texts | changed))
            except antt.Fault as fault:
                found = str(fault)
            if part not in found:
                raise antt.Fault(f"{label} is not found: '{part}' is not in what is found: {found or 'nothing'}")
            tried += 1
        count = f"{closure.lines():,} lines in {len(closure.files)} files, {closure.lines(comments=False):,} without the comments"
        print(f"believe: {count}; {tried} wrong lists are found out")


if __name__ == "__main__":
    try:
        main(sys.argv[1:])
    except antt.Fault as fault:
        sys.exit("\n".join(f"believe: {line}" for line in str(fault).split("\n")))
