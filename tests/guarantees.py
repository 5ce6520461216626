#!/usr/bin/env python3
"""Whether docs/GUARANTEES.md and the pages of docs/guarantees/ say what is there.

    tests/guarantees.py

Each page is one table, with headings between groups of rows. What stands in `..` in a row is a reference, by its column:

    Statement   Name                    a declaration of some crates/crate/specs/Module.antt, or a field Demand1.name of a record of RECORDS
    Definition  name                    a declaration there; Name.part is a constructor or a field of it
    Function    crate::module::name     a function or method with a contract, a constant or a type of crates/crate/src; or a path
    Proof       name                    a `pub name : ..` of some crates/crate/proofs/Module.antt
    Edits       crate: label, label     files of crates/crate/must-fail

Where several files declare a name, it is written crate/Module.name.
It fails unless every reference is there; no two definitions of specs/ share a name; each statement has in its row a proof of that type, the statement itself or applied to calls,
with no hypothesis, and each proof of a declared statement has that in its row; every must-fail edit stands in just one row; every field
of those records, every statement that is proved, every function that is exported for C and every public call stands in some row, a field
and a statement in one that has an edit or says where it is; and the contracts of these functions say what tests/contracts.py wants of them.

Then the same is asked of pages and sources that are wrong, each in one way; the test fails if one of them passes.
"""

import functools
import re
import sys

import antt
import contracts

COLUMNS = ["Paper", "Statement", "Definition", "Function", "Proof", "Edits"]
# files whose records are statements: the three demands, and what closes them
RECORDS = ["crates/guarantees/specs/Demands.antt", "crates/guarantees/specs/Closing.antt"]
# what a statement may be applied to where it is proved: the calls
ARGUMENTS = [f"{module}.{name}" for module, names in antt.CALLS.items() for name in names]
ARGUMENTS += ["soundness/ExportCalls.index"]
PATH = re.compile(r"\b(?:crates|docs|tests|include|fixtures|host|bench)/[\w./-]*\w")


def read():
    """Every file that is asked about, by its path; and every other path, with no text, but for what rt makes in a crate's out/."""
    texts = {}
    for top in ("crates", "docs", "tests", "include", "fixtures", "host", "bench"):
        for path in (antt.ROOT / top).rglob("*"):
            name = str(path.relative_to(antt.ROOT))
            asked = path.suffix in (".antt", ".rt", ".edit") or (top == "docs" and path.suffix == ".md")
            if not re.match(r"crates/\w+/out\b", name):
                texts[name] = path.read_text() if asked and path.is_file() else ""
    return texts | {"README.md": (antt.ROOT / "README.md").read_text()}


@functools.cache
def proofs_of(path, text):
    """Of a file of proofs: the names of all `pub name : type`, the types of those at the start of a line, in words, and what it uses.

    One that stands deeper is in a module, and may have its hypotheses."""
    names = set(re.findall(r"^ *pub (\S+) :", text, re.M))
    types = re.findall(r"^pub (\S+) :((?:.*\n)(?: +.*\n)*)", text, re.M)
    return names, {name: re.sub(r"\s*--.*", "", kind).split() for name, kind in types}, antt.uses(path, text)


class Tree(contracts.Sources):
    """The specs, the proofs, the edits and the sources."""

    def __init__(self, texts):
        super().__init__(texts)
        self.specs = antt.Specs({p: t for p, t in texts.items() if re.match(r"crates/\w+/specs/.*\.antt", p)})
        records = [i for m in self.specs.order if m.path in RECORDS for i in m.items.values() if i.kind == "pub record"]
        self.fields = {f"{record.name}.{name}": (record, kind.split()) for record in records for name, kind in record.inner.items()}
        self.edits = {tuple(re.fullmatch(r"crates/(\w+)/must-fail/(.+)\.edit", p).groups()) for p in texts if p.endswith(".edit")}
        self.proved = {}
        self.declares = [f"{module}.{name}" for module in self.specs.order for name in module.items]
        self.proves = []
        for path, text in texts.items():
            if where := re.fullmatch(r"crates/(\w+)/proofs/(.+)\.antt", path):
                names, types, used = proofs_of(path, text)
                module = f"{where[1]}/{where[2].replace('/', '.')}"
                self.proves += [f"{module}.{name}" for name in names]
                for name, kind in types.items():
                    if statement := self.statement(kind, *used):
                        self.proved[f"{module}.{name}"] = statement
        self.files_of = {column: by_last(known) for column, known in (("Definition", self.declares), ("Proof", self.proves))}
        self.files_of["Statement"] = self.files_of["Definition"]

    def statement(self, kind, brought, aliases):
        """The declaration that a type is, with the calls that it is applied to; None where it is another type, like one with an arrow."""
        names = []
        for word in kind:
            alias, _, name = word.rpartition(".")
            crate, module, name = (*aliases[alias], name) if alias in aliases else brought.get(word, (None, None, None))
            if (crate, module) not in self.specs.modules or name not in self.specs.modules[crate, module].items:
                return None
            names.append(f"{crate}/{module}.{name}")
        return " ".join(names) if names and all(name in ARGUMENTS for name in names[1:]) else None

    def field_statement(self, field):
        record, kind = self.fields[field]
        own = {name: (record.module.crate, record.module.name, name) for name in record.module.items}
        return self.statement(kind, record.module.brought | own, record.module.aliases)

    def field_record(self, field):
        return str(self.fields[field][0])

    def field_place(self, field):
        record, name = field.split(".")
        path = self.fields[field][0].module.path
        text = self.texts[path]
        return f"{path}:{text[: text.index(f'  pub {name} :', text.index(f'pub record {record} '))].count(chr(10)) + 1}"

    def whole(self, column, name):
        """A name of a row with the file that declares it; as it stands where no file does, or several do."""
        first, dot, part = name.partition(".")
        found = self.files_of.get(column, {}).get(first, [])
        return found[0] + dot + part if "/" not in name and name not in self.fields and len(found) == 1 else name

    # ---- references: each answers what is wrong with it, or None

    def declaration(self, name):
        found = re.fullmatch(r"(\w+)/([\w.]+?)\.([^\s.]+)(?:\.([^\s.]+))?", name)
        if not found:
            return f"{len(self.files_of['Definition'].get(name.split('.')[0], []))} files of specs declare it, and it is no field of the records"
        crate, module, declared, part = found.groups()
        if part and (crate, f"{module}.{declared}") in self.specs.modules:
            module, declared, part = f"{module}.{declared}", part, None
        if (crate, module) not in self.specs.modules:
            return f"there is no crates/{crate}/specs/{module.replace('.', '/')}.antt"
        item = self.specs.modules[crate, module].items.get(declared)
        if not item:
            return f"crates/{crate}/specs/{module.replace('.', '/')}.antt declares no {declared}"
        if part and part not in item.inner:
            return f"{declared} has no constructor or field {part}"
        return None

    def proof(self, name):
        found = re.fullmatch(r"(\w+)/([\w.]+)\.([^\s.]+)", name)
        if not found:
            return f"{len(self.files_of['Proof'].get(name, []))} files of proofs declare it"
        path = f"crates/{found[1]}/proofs/{found[2].replace('.', '/')}.antt"
        if path not in self.texts:
            return f"there is no {path}"
        return None if found[3] in proofs_of(path, self.texts[path])[0] else f"{path} has no 'pub {found[3]} :'"

    def function(self, name):
        if "/" in name:
            return None if name.rstrip("/") in self.texts else f"there is no {name}"
        found = self.item(name)
        if not found:
            return "there is no such function, method, constant or type"
        return "the function has no contract" if re.search(r"\bfn\b", found[2]) and "ensures" not in self.contract(name) else None

def record_faults(tree):
    """What is wrong with the records that are statements: each has no parameters, and each demand is one."""
    found = []
    for module in tree.specs.order:
        for item in module.items.values() if module.path in RECORDS else []:
            place = f"{module.path}:{item.start}: {item.name}"
            if item.kind == "pub record" and item.head.strip() != f"pub record {item.name} : Type 0 where":
                found.append(f"{place}: a record that is no statement of the form 'pub record {item.name} : Type 0 where'")
            if item.kind != "pub record" and item.name.startswith("Demand"):
                found.append(f"{place}: a demand that is no record")
    return found


class Row:
    """The names of a row by their columns, as they stand there; `names` has each with its file."""

    def __init__(self, page, line, cells):
        self.place, self.cells = f"{page}:{line}", cells
        self.written = {c: re.findall(r"`([^`]*)`", cell) for c, cell in zip(COLUMNS, cells)}
        self.names = self.written
        self.edits = []
        for group in self.written["Edits"]:
            crate, _, labels = group.partition(":")
            self.edits += [(crate.strip(), label.strip()) for label in labels.split(",")]

    def resolve(self, tree):
        self.names = {column: [tree.whole(column, name) for name in names] for column, names in self.written.items()}


def by_last(names):
    """Names like crate/Module.name by their last part."""
    found = {}
    for name in names:
        found.setdefault(name.rpartition(".")[2], []).append(name)
    return found


def rows_of(page, text):
    """The rows of a page; every table has the columns."""
    rows, wrong = [], []
    lines = text.split("\n")
    for number, line in enumerate(lines, 1):
        cells = [c.strip() for c in re.split(r"(?<!\\)\|", line.strip())[1:-1]]
        if not line.startswith("|") or re.fullmatch(r"\|[-| ]*\|", line):
            continue
        if number < len(lines) and re.fullmatch(r"\|[-| ]*\|", lines[number]):
            if cells != COLUMNS:
                wrong.append(f"{page}:{number}: a table with other columns: {', '.join(cells)}")
        elif len(cells) != len(COLUMNS):
            wrong.append(f"{page}:{number}: {len(cells)} cells, not {len(COLUMNS)}")
        elif line.count("`") % 2 or not cells[0]:
            wrong.append(f"{page}:{number}: a '`' that is not closed, or no words of document 01")
        else:
            rows.append(Row(page, number, cells))
    return rows, wrong


def pages(texts):
    return [p for p in texts if p == "docs/GUARANTEES.md" or re.fullmatch(r"docs/guarantees/.+\.md", p)]


def faults(texts):
    """What is wrong, a line each."""
    tree, rows, found = Tree(texts), [], []
    for page in pages(texts):
        more, wrong = rows_of(page, texts[page])
        rows, found = rows + more, found + wrong
        for number, line in enumerate(texts[page].split("\n"), 1):
            words = re.sub(r"`[^`]*`", "", line) if line.startswith("|") else line
            found += [f"{page}:{number}: there is no {path}" for path in PATH.findall(words) if path not in texts]
    for row in rows:
        row.resolve(tree)
    standing = {column: {} for column in COLUMNS}
    look = {"Statement": tree.declaration, "Definition": tree.declaration, "Function": tree.function, "Proof": tree.proof}
    for row in rows:
        for column, ask in look.items():
            for name in row.names[column]:
                standing[column].setdefault(name, row)
                if not (column == "Statement" and name in tree.fields) and (wrong := ask(name)):
                    found.append(f"{row.place}: {name}: {wrong}")
        found += joined(tree, row)
        for edit in row.edits:
            if edit not in tree.edits:
                found.append(f"{row.place}: {': '.join(edit)}: there is no crates/{edit[0]}/must-fail/{edit[1]}.edit")
            elif edit in standing["Edits"]:
                found.append(f"{row.place}: {': '.join(edit)}: stands in {standing['Edits'][edit].place} too")
            else:
                standing["Edits"][edit] = row
    for crate, label in sorted(tree.edits - set(standing["Edits"])):
        found.append(f"crates/{crate}/must-fail/{label}.edit: stands in no row")
    found += [f"{tree.field_place(field)}: {field}: stands in no row" for field in tree.fields if field not in standing["Statement"]]
    tried = {name for row in rows if row.cells[-1] for name in row.names["Statement"]}
    found += [f"{tree.field_place(field)}: {field}: no row of it has an edit, or says where" for field in tree.fields if field not in tried]
    untried = [(name, row) for name, row in standing["Statement"].items() if name not in tree.fields and name not in tried]
    found += [f"{row.place}: {name}: no row of it has an edit, or says where" for name, row in untried]
    for proof, statement in tree.proved.items():
        statement = statement.split()[0]
        crate, module, name = re.fullmatch(r"(\w+)/(.+)\.(\S+)", statement).groups()
        item = tree.specs.modules[crate, module].items[name]
        if re.search(r"Type 0\s*$", item.head) and item.kind == "abbrev pub" and statement not in standing["Statement"]:
            found.append(f"crates/{crate}/specs/{module.replace('.', '/')}.antt:{item.start}: {statement} is proved by {proof} and stands in no row")
    found += [f"{name}: is declared twice: {', '.join(twice)}" for name, twice in tree.files_of["Definition"].items() if len(twice) > 1]
    functions, wrong = tree.exported()
    found += wrong
    found += [f"{tree.place(name)}: {name}: stands in no row" for name in contracts.CONTRACTS | functions if name not in standing["Function"]]
    return found + record_faults(tree) + contracts.faults(tree, functions)


def joined(tree, row):
    """Each statement of a row has its proof there, and each proof of a statement has that."""
    found = []
    proofs = {tree.proved[p]: p for p in row.names["Proof"] if p in tree.proved}
    fields = [s for s in row.names["Statement"] if s in tree.fields]
    for statement in row.names["Statement"]:
        if statement in fields:
            record = tree.field_record(statement)
            if record not in proofs and tree.field_statement(statement) not in proofs:
                found.append(f"{row.place}: {statement}: no proof of this row is one of {tree.field_statement(statement) or record}")
        elif not tree.declaration(statement) and statement not in [proved.split()[0] for proved in proofs]:
            found.append(f"{row.place}: {statement}: no proof of this row has this type")
    for proved, proof in proofs.items():
        of_field = any(proved in (tree.field_record(f), tree.field_statement(f)) for f in fields)
        if proved.split()[0] not in row.names["Statement"] + row.names["Definition"] and not of_field:
            found.append(f"{row.place}: {proof}: proves {proved}, which does not stand in this row")
    return found


def wrong(texts):
    """Pages and sources that are wrong in one way: a label, the texts that differ, and a part of what is to be found."""
    page = "docs/GUARANTEES.md"
    rows = rows_of(page, texts[page])[0]
    lines = texts[page].split("\n")
    tree = Tree(texts)
    for row in rows:
        row.resolve(tree)

    def in_row(row, old, new):
        number = int(row.place.split(":")[1])
        return {page: "\n".join([*lines[: number - 1], lines[number - 1].replace(old, new, 1), *lines[number:]])}

    # the page
    for column in ("Statement", "Definition", "Function", "Proof"):
        row = next(r for r in rows if r.names[column])
        name = row.written[column][0]
        yield f"a name that is not there, under {column}", in_row(row, f"`{name}`", f"`{name}x`"), f"{name}x: "
    path, name = "crates/calculus/specs/Tree.antt", "MachineCasesHold"
    yield "a name that two files declare", {path: texts[path] + f"\nabbrev pub {name} : Type 0\n{name} = Tree\n"}, f"{name}: is declared twice"
    row = next(r for r in rows if r.names["Statement"] and r.names["Proof"])
    yield "a proof left out", in_row(row, f"`{row.written['Proof'][0]}`", ""), f"{row.place}: {row.names['Statement'][0]}: no proof of this row"
    row = next(r for r in rows if r.edits)
    crate, label = row.edits[0]
    rest = row.written["Edits"][0].replace(label, "").strip(" ,")
    yield "an edit left out", in_row(row, f"`{row.written['Edits'][0]}`", f"`{rest}`"), f"{crate}/must-fail/{label}.edit: stands in no row"
    yield "an edit that is not there", in_row(row, label, "nowhere"), f"there is no crates/{crate}/must-fail/nowhere.edit"
    yield "a row with a cell more", in_row(row, "| ", "| and | "), f"{row.place}: 7 cells, not 6"
    other = next(r for r in rows if r.edits and r is not row)
    twice = in_row(other, f"`{other.written['Edits'][0]}`", f"`{other.written['Edits'][0]}`, `{crate}: {label}`")
    yield "an edit in two rows", twice, f"{crate}: {label}: stands in {row.place} too"
    field, row = next((f, of[0]) for f in tree.fields if len(of := [r for r in rows if f in r.names["Statement"]]) == 1 and of[0].edits)
    yield f"{field} with no edit", in_row(row, f"| {row.cells[-1]} |", "| |"), f"{field}: no row of it has an edit"
    statements = [(name, r) for r in rows if r.edits for name in r.names["Statement"] if name not in tree.fields]
    name, row = next((name, r) for name, r in statements if sum(name in other.names["Statement"] for other in rows) == 1)
    yield f"{name} with no edit", in_row(row, f"| {row.cells[-1]} |", "| |"), f"{name}: no row of it has an edit"
    yield "a path that is not there", {page: texts[page] + "\nSee docs/NOWHERE.md.\n"}, "there is no docs/NOWHERE.md"
    yield "one in a row", in_row(row, "| ", "| docs/NOWHERE.md "), f"{row.place}: there is no docs/NOWHERE.md"
    for field in (next(f for f in tree.fields if tree.fields[f][0].module.path == path) for path in RECORDS):
        yield f"{field} left out", {p: texts[p].replace(f"`{field}`", "") for p in pages(texts)}, f"{field}: stands in no row"

    # what it is about
    yield "a new edit", {f"crates/{crate}/must-fail/new.edit": ""}, f"crates/{crate}/must-fail/new.edit: stands in no row"
    yield from wrong_statements(texts, tree, rows)
    yield from contracts.wrong(texts, tree)


def wrong_statements(texts, tree, rows):
    """Statements and proofs that are wrong in one way."""
    for path in RECORDS:
        record = re.search(r"^pub record (\w+) : Type 0 where\n", texts[path], re.M)
        new = texts[path].replace(record[0], record[0] + "  pub new : ℕ\n")
        yield f"a new field of {record[1]}", {path: new}, f"{record[1]}.new: stands in no row"
        new = texts[path].replace(record[0], record[0].replace(" :", " (h : ⊥) :"))
        yield f"{record[1]} with a parameter", {path: new}, f"{record[1]}: a record that is no statement"
    new = "\nabbrev pub Demand4 : Type 0\nDemand4 = ℕ\n"
    yield "a demand that is no record", {RECORDS[0]: texts[RECORDS[0]] + new}, "Demand4: a demand that is no record"

    # a proof of a statement, one of a statement that is applied to a call, and one of a field that is
    proved = [(row, proof, tree.proved[proof]) for row in rows for proof in row.names["Proof"] if proof in tree.proved]
    fields = {tree.field_statement(field): field for field in tree.fields}
    plain = next((row, proof, says) for row, proof, says in proved if says in row.names["Statement"])
    applied = next((row, proof, says.split()[0]) for row, proof, says in proved if " " in says and says.split()[0] in row.names["Statement"])
    of_field = next((row, proof, fields[says]) for row, proof, says in proved if " " in says and fields.get(says) in row.names["Statement"])
    for row, proof, says in (plain, applied, of_field):
        path, name, kind = proof_of(texts, proof)
        line, part = f"pub {name} : {kind}\n", f"{row.place}: {says}: no proof of this row"
        for label, new in (
            ("that asks for something", f"pub {name} : ⊥ → {kind}\n"),
            ("that asks for something, in other signs", f"pub {name} : ⊥ -> {kind}\n"),
            ("in a module with a hypothesis", f"module _ (h : ⊥) where\n  pub {name} : {kind}\n"),
            ("of something else", f"pub {name} : {kind}'\n"),
        ):
            yield f"a proof {label}, for {says}", {path: texts[path].replace(line, new)}, part
    bare = {p: re.sub(rf"`(\S+\.)?{applied[2].rpartition('.')[2]}`", "", texts[p]) for p in pages(texts)}
    yield f"{applied[2]} left out", bare, f"{applied[2]} is proved by"
    path, name, kind = proof_of(texts, of_field[1])
    new = texts[path].replace(f"pub {name} : {kind}\n", f"pub {name} : {kind.rpartition(' ')[0]} another\n")
    use = "use Rattle.plain.specs.Run.{plain_run as another}\n"
    yield "a field's proof, of another call", {path: use + new}, f"{of_field[0].place}: {of_field[2]}: no proof of this row"

    path, name, kind = proof_of(texts, plain[1])
    yield "a proof that is gone", {path: texts[path].replace(f"pub {name} :", f"{name} :")}, f"{plain[0].place}: {plain[2]}: no proof of this row"
    crate, module, _ = re.fullmatch(r"(\w+)/(.+)\.(\S+)", plain[2]).groups()
    specs = f"crates/{crate}/specs/{module.replace('.', '/')}.antt"
    yield "a statement that no row has", {
        specs: texts[specs] + "\nabbrev pub New : Type 0\nNew = ℕ\n",
        path: texts[path] + f"\nuse Rattle.{crate}.specs.{module}.{{New}}\npub new : New\nnew = 0\n",
    }, f"{crate}/{module}.New is proved by"


def proof_of(texts, proof):
    """The file of a proof, its name there, and its type."""
    crate, module, name = re.fullmatch(r"(\w+)/(.+)\.(\S+)", proof).groups()
    path = f"crates/{crate}/proofs/{module.replace('.', '/')}.antt"
    return path, name, " ".join(proofs_of(path, texts[path])[1][name])


def main():
    texts = read()
    if found := faults(texts):
        return found
    tried = 0
    for label, changed, part in wrong(texts):
        found = "\n".join(faults(texts | changed))
        if part not in found:
            return [f"{label} is not found: '{part}' is not in what is found: {found or 'nothing'}"]
        tried += 1
    rows = [r for p in pages(texts) for r in rows_of(p, texts[p])[0]]
    edits = sum(len(r.edits) for r in rows)
    print(f"guarantees: {len(rows)} rows in {len(pages(texts))} pages, {edits} edits; {tried} wrong pages and sources are found out")
    return []


if __name__ == "__main__":
    try:
        found = main()
    except antt.Fault as fault:
        found = [str(fault)]
    if found:
        sys.exit("\n".join(f"guarantees: {line}" for line in found))
