"""What the contracts of the public calls say, and whether they do: what tests/guarantees.py and tests/believe.py know of the sources.

A public call has no `requires`, and its contract is an equation with its definition: the definition gets every argument of the function, once
and in order, and every lent table at the exit is spoken of. The names in it come from where they are declared, under their own names. An answer's
numbers are read from its fields by their names. README.md's table of calls lists just these.
"""

import functools
import re

import antt

# what the contract of each public call says: LEFT are the lent tables at the exit and, where the shape does not name it itself, the answer;
# GIVEN the arguments that the shape does not name itself; all in order
PUBLIC = {
    "loader::load": "loaded LEFT (by_number result) ≡ load GIVEN",
    "engine::run_from": "ran LEFT (told_run result) ≡ run_from GIVEN",
    "engine::run": "ran LEFT (told_run result) ≡ run_from Scratch GIVEN",
    "engine::carry_on": "ran LEFT (told_run result) ≡ run_from (Stop waiting steps) GIVEN",
    "plain::run": "played LEFT (told_plain result) ≡ plain_run GIVEN",
    "bundle::check": "answer_of result ≡ refusal GIVEN",
    "bundle::exports::name_part": "LEFT ≡ name_part GIVEN",
    "bundle::exports::export_name": "LEFT.now ≡ name_call GIVEN",
    "bundle::exports::export_index": "by_number result ≡ index_call GIVEN",
    "listing::list": "(result ≤ length out.new) × (take result out.new ≡ listing GIVEN) × (drop result out.new ≡ drop result out.old)",
}
# the calls of README.md's table: all of these but that of the program
CALLED = [name for name in PUBLIC if name != "listing::list"]
# the same of the functions that are exported for C
FOR_C = {
    "arboricx::arboricx_version": "LEFT ≡ version",
    "arboricx::arboricx_check": "LEFT ≡ refusal GIVEN",
    "arboricx::arboricx_load": "left LEFT ≡ after_load (load GIVEN)",
    "arboricx::arboricx_run": "left LEFT ≡ after_run (run_from Scratch GIVEN)",
    "arboricx::arboricx_carry_on": "left LEFT ≡ after_run (run_from (Stop waiting steps) GIVEN)",
    "arboricx::arboricx_plain_run": "left_one LEFT ≡ after_plain (plain_run GIVEN)",
    "arboricx::arboricx_export_index": "told LEFT ≡ after_index (index_call GIVEN)",
    "arboricx::arboricx_export_name": "LEFT ≡ part_words (name_part GIVEN)",
    "arboricx::arboricx_sha256": "LEFT ≡ sha256 GIVEN",
}
CONTRACTS = PUBLIC | FOR_C
# arguments that are written only: no definition gets them
WRITTEN = ("answer", "digest", "out")
# arguments that a shape names itself
NAMED = ("waiting", "steps")
# where the names of these contracts come from: a file of specs as crate/Module, or one of the kit's library
SOURCES = [
    *antt.CALLS.items(),
    ("loader/Load", ["loaded"]),
    ("engine/Run", ["ran"]),
    ("engine/declared.From.TheVariants", ["Scratch", "Stop"]),
    ("engine/Told", ["told_run"]),
    ("plain/Run", ["played"]),
    ("plain/Told", ["told_plain"]),
    ("refusals/Numbers", ["by_number", "answer_of"]),
    ("listing/Listing", ["listing"]),
    ("sha256_block/Fips180", ["sha256"]),
    ("answers/Words", ["part_words", "version"]),
    ("answers/Calls", ["left", "left_one", "told", "after_load", "after_run", "after_plain", "after_index"]),
    ("Rattle.std.specs.Prelude", ["◌≡◌", "◌≤◌", "length", "take", "drop"]),
]
WHERE = {name: source for source, names in SOURCES for name in names}
# the types of answers and of endings, and the definition that gives the paper's numbers of each case
ANSWERS = {
    "loader::Accepted": "loader/Answer.load_numbers",
    "engine::Ending": "engine/Answer.run_numbers",
    "plain::PlainEnding": "plain/Answer.plain_numbers",
}
# the start of an item of a source file
ITEM = re.compile(r'^( *)(?:pub(?:\(crate\))? )?(?:extern "C" )?(fn|const|struct|enum|impl|mod|use|ghost)\b *(\w*)|^ *#\[', re.M)
CONTRACT = re.compile(r"pub [^(]*\(([^()]*)\)\s*(?:-> ([^\n]*?)\s*)?ensures \{ (.*?) \}\s*\{\n", re.S)


@functools.cache
def items_of(text):
    """Each item of a source file by its name, a method after its type: where it starts, and its text up to the next item, no comments."""
    text = re.sub(r"//[^\n]*", lambda comment: " " * len(comment[0]), text)
    starts = list(ITEM.finditer(text))
    found, owner = {}, ""
    for start, end in zip(starts, [*(s.start() for s in starts[1:]), len(text)]):
        depth, kind, name = start.groups()
        owner = name if kind == "impl" else owner
        if kind in ("fn", "const", "struct", "enum"):
            found.setdefault(f"{owner}::{name}" if depth else name, (start.start(), text[start.start() : end]))
    return found


class Sources:
    """The sources of the crates: functions, constants and types by their paths."""

    def __init__(self, texts):
        self.texts = texts

    def item(self, name):
        """The file of a function, a constant or a type, the line there, and its text; None where it is not there."""
        crate, *path = name.split("::") if "::" in name else [name, name]
        for cut in range(len(path) - 1, -1, -1):
            files = ["lib", "main"] if cut == 0 else ["/".join(path[:cut]), "/".join(path[:cut]) + "/mod"]
            for file in [f"crates/{crate}/src/{f}.rt" for f in files]:
                if found := items_of(self.texts.get(file, "")).get("::".join(path[cut:])):
                    return file, self.texts[file][: found[0]].count("\n") + 1, found[1]
        return None

    def place(self, name):
        found = self.item(name)
        return f"{found[0]}:{found[1]}" if found else "tests/contracts.py"

    def contract(self, name):
        """A function's text up to its body."""
        return re.split(r"\n *\{\n", self.item(name)[2])[0]

    def contracts(self):
        """The public calls and the functions for C, by their files."""
        files = {}
        for name in CONTRACTS:
            files.setdefault(self.item(name)[0], []).append(name)
        return files

    def bring(self, path, word):
        """The `ghost use` lines of a source file that have a word."""
        return [line for line in re.findall(r"ghost use [^;]*;", self.texts[path]) if word in re.split(r"[\s{},;]+", line)]

    def named(self, name, specs):
        """What a public contract names, declarations of specs; and the types of its arguments and of its answer that are declared in code."""
        path, contract = self.item(name)[0], self.contract(name)
        uses = re.findall(r"^ghost use (Rattle\.\w+\.specs\.[^;]*);", self.texts[path], re.M)
        scope = antt.module_of(name.partition("::")[0], path, path, "".join(f"use {use}\n" for use in uses))
        signature, _, says = contract.partition("ensures")
        return specs.named(scope, says) + [kind for word in re.findall(r"\b[A-Z]\w*", signature) for kind in self.kinds(name, word)]

    def kinds(self, name, word):
        """The types that a word of a function's signature may be: declared beside the function, or brought by a `use`."""
        crate, *path = name.split("::")[:-1]
        paths = ["::".join([crate, *path, word])]
        for where, words, last in re.findall(r"^use ([\w:]+?)::(?:\{([^}]*)\}|(\w+));", self.texts[self.item(name)[0]], re.M):
            if word in re.findall(r"\w+", words or last):
                paths.append(re.sub(r"^crate\b", crate, f"{where}::{word}"))
        return [kind for kind in paths if re.match(r"(?:pub )?(?:struct|enum) ", (self.item(kind) or ("", 0, ""))[2])]

    def brings(self, path):
        """Those that bring the names of its public contracts."""
        words = [word for name in self.contracts()[path] for word in heads(name)]
        return list(dict.fromkeys(line for word in words for line in self.bring(path, word)))

    def declared(self, name):
        """The text of a struct or an enum of the source."""
        crate, *path, last = name.split("::")
        text = self.texts[f"crates/{crate}/src/{'/'.join(path) or 'lib'}.rt"]
        return re.search(rf"^(?:pub )?(?:struct|enum) {last}(?:<[^>]*>)? \{{.*?^\}}", text, re.M | re.S)[0]

    def exported(self):
        """The functions that are exported for C, as crate::module::name, and their files."""
        found, wrong = {}, []
        for path, text in self.texts.items():
            if where := re.fullmatch(r"crates/(\w+)/src/(.+)\.rt", path):
                names = re.findall(r'#\[unsafe\(no_mangle\)\]\s*pub extern "C" fn (\w+)', text)
                if len(names) != text.count("no_mangle"):
                    wrong.append(f"{path}: {text.count('no_mangle')} functions are exported, {len(names)} could be read")
                module = "" if where[2] in ("lib", "main") else where[2].replace("/", "::") + "::"
                found |= {f"{where[1]}::{module}{name}": path for name in names}
        return found, wrong


def read_sources():
    """The sources of the crates, by their paths."""
    return {str(p.relative_to(antt.ROOT)): p.read_text() for p in sorted(antt.ROOT.glob("crates/*/src/**/*.rt"))}


def heads(name):
    """The names of a public contract that a `ghost use` has to bring."""
    found = []
    for word in re.findall(r"[^\s()]+", re.sub(r"\b(\w+)\.(now|old|new)\b", r"\1", CONTRACTS[name])):
        if word in WHERE or f"◌{word}◌" in WHERE:
            found.append(word if word in WHERE else f"◌{word}◌")
        elif word not in ("LEFT", "GIVEN", "result", "×", *WRITTEN, *NAMED):
            raise antt.Fault(f"tests/contracts.py: {name}: SOURCES does not say where '{word}' comes from")
    return found


def equation(shape, parameters, returned):
    """What a contract of that shape says of these parameters, each a name and a type."""
    lent = [x for x, kind in parameters if kind.startswith("&mut")]
    left = [f"{x}.new" for x in lent] + (["result"] if returned and not re.search(r"\bresult\b", shape) else [])
    named = [x for x in NAMED if re.search(rf"\b{x}\b", shape)]
    taken = [(x, kind) for x, kind in parameters if x not in named and (x not in WRITTEN or x not in lent)]
    given = [f"{x}.old" if kind.startswith("&mut") else f"{x}.now" if kind.startswith("&") else x for x, kind in taken]
    return shape.replace("LEFT", " ".join(left)).replace("GIVEN", " ".join(given))


def public_faults(sources, name):
    """What is wrong with a call that anyone may make."""
    if not sources.item(name):
        return ["there is no such function"]
    if name not in CONTRACTS:
        return ["tests/contracts.py does not know what its contract is to say"]
    path, _, source = sources.item(name)
    found = ["a call that anyone may make has a 'requires'"] if re.search(r"\brequires\b", source) else []
    contract = CONTRACT.match(source)
    if not contract:
        return found + ["its contract is not understood"]
    parameters = re.findall(r"(\w+):\s*([^,]*[^,\s])", contract[1])
    said, wanted = " ".join(contract[3].split()), equation(CONTRACTS[name], parameters, contract[2])
    if said != wanted or any(f"{x}.new" not in re.findall(r"[\w.]+", said) for x, kind in parameters if kind.startswith("&mut")):
        found.append(f"its contract does not say '{wanted}'")
    for word in heads(name):
        crate, slash, module = WHERE[word].partition("/")
        wanted = f"ghost use Rattle.{crate}.specs.{module}" if slash else f"ghost use {crate}"
        lines = sources.bring(path, word)
        where, _, names = "".join(lines).rstrip("};").partition(".{")
        named = [each.strip() for each in names.split(",") if word in each.split()]
        if len(lines) != 1 or where != wanted or named != [word]:
            found.append(f"'{word}' of its contract is not brought from {WHERE[word]} under its own name")
    return found


def answer_faults(sources, name, numbers):
    """Whether its numbers take the fields of each case in the order in which the code declares them, under their names; `n` is a number. Of a
    struct, whether they take each field under its own name."""
    crate, module, definition = re.fullmatch(r"(\w+)/(\w+)\.(\w+)", numbers).groups()
    text, declared = sources.texts[f"crates/{crate}/specs/{module}.antt"], re.sub(r" *//[^\n]*\n", "\n", sources.declared(name))
    cases = dict(re.findall(rf"^{definition} \((?:Ok \()?(\w+)(.*?)\)+ =", text, re.M))
    found = []
    if record := re.match(r"(?:pub )?struct \w+ \{(.*)\}", sources.declared(name), re.S):
        line = re.search(rf"^{definition} \(Ok (\w+)\) = (.*)$", sources.texts[f"crates/{crate}/specs/{module}.antt"], re.M)
        for field in re.findall(r"(\w+):", record[1]):
            if not line or not re.search(rf"\b{field} = {line[1]}\.{field}\b", line[2]):
                found.append(f"{sources.place(name)}: {name}: {numbers} takes another field for '{field}'")
        return found
    for case, fields in re.findall(r"^    (\w+)\s*(\(.*?\)|\{.*?\})?,$", re.sub(r" *//[^\n]*\n", "\n", sources.declared(name)), re.M | re.S):
        named = re.findall(r"(\w+):(?!:)", fields)
        taken = cases.get(case, "").split()
        if named and taken != named or not named and len(taken) != len(re.findall(r"\w+", fields)):
            found.append(f"{sources.place(name)}: {name}: {numbers} takes '{' '.join(taken)}' of {case}")
    return found


def readme_faults(text):
    """The calls of README.md's table are those of CALLED. One with no path is where the one before it is."""
    calls, where = [], ""
    for row in re.findall(r"^\| (`.*?) \|", text.partition("\n## The calls\n")[2].partition("\n## ")[0], re.M):
        for path, name in re.findall(r"`((?:\w+::)*)(\w+)\(", row):
            where = path or where
            calls.append(where + name)
    found = [f"README.md: {call}: is called public, and is none of PUBLIC of tests/contracts.py" for call in calls if call not in CALLED]
    return found + [f"README.md: {name}: a public call that the table has not" for name in CALLED if name not in calls]


def faults(sources, functions):
    """What is wrong with the public calls and with the functions that are exported for C, a line each."""
    found = []
    for name in CONTRACTS | functions:
        found += [f"{sources.place(name)}: {name}: {wrong}" for wrong in public_faults(sources, name)]
    found += [f"{sources.place(name)}: {name}: is not exported for C" for name in FOR_C if name not in functions]
    for name, module in ANSWERS.items():
        found += answer_faults(sources, name, module)
    return found + readme_faults(sources.texts["README.md"])


def wrong(texts, sources):
    """Sources and README.md that are wrong in one way: a label, the texts that differ, and a part of what is to be found."""

    def other(name, old, new):
        path, contract = sources.item(name)[0], sources.contract(name)
        if old not in contract:
            raise antt.Fault(f"tests/contracts.py: {name}: its contract has no '{old}'")
        return {path: texts[path].replace(contract, contract.replace(old, new, 1))}

    asks = "requires { 0 ≡ 0 }"
    for name in (next(iter(FOR_C)), *PUBLIC):
        part = f"{name}: a call that anyone may make has a 'requires'"
        yield f"a 'requires' on {name}", other(name, "ensures", f"{asks}\n    ensures"), part
        yield f"one after the 'ensures' of {name}", other(name, " }", f" }}\n    {asks}"), part
        yield f"one at the start of a line, of {name}", other(name, " }", f"\n}}\n{asks}"), part
    for name, old, new in (
        ("arboricx::arboricx_run", "base f x", "base x f"),
        ("arboricx::arboricx_run", "(run_from Scratch ", "(run_tail Scratch "),
        ("arboricx::arboricx_carry_on", "(Stop waiting steps)", "(Stop steps waiting)"),
        ("arboricx::arboricx_load", "answer.new", "answer.old"),
        ("arboricx::arboricx_load", "exports: &mut", "exports: &"),
        ("arboricx::arboricx_export_index", "file.now name.now", "name.now file.now"),
        ("engine::run", "jobs.new", "words.new"),
        ("engine::run", "(told_run result)", "result"),
        ("engine::run", "used fuel", "used 0"),
        ("engine::run", "used fuel", "used (fuel - 1)"),
        ("engine::run", "f x used", "f f used"),
        ("engine::carry_on", "(Stop waiting steps)", "(Stop waiting 0)"),
        ("engine::carry_on", "(Stop waiting steps)", "Scratch"),
        ("engine::run", "{ ran", "{ 0 ≡ 1 → ran"),
        ("arboricx::arboricx_plain_run", "fuel job_room", "job_room fuel"),
        ("plain::run", "f x used", "x f used"),
        ("plain::run", "fuel places", "fuel fuel"),
        ("loader::load", " base exports", " (pos 0) exports"),
        ("loader::load", "words.new", "words.old"),
        ("loader::load", "exports.old", "exports.new"),
        ("loader::load", "file: &[u8]", "file: &[u8], more: u32"),
        ("bundle::check", "refusal", "name_refusal"),
        ("bundle::exports::name_part", " index }", " 0 }"),
        ("listing::list", "drop result out.new", "drop result out.old"),
        ("listing::list", "input.now", "out.old"),
    ):
        yield f"'{new}' in the contract of {name}", other(name, old, new), f"{name}: its contract does not say"
    for path, old, new, name in (
        ("crates/plain/src/lib.rt", "{ why: W, steps: u32, used: u32 }", "{ why: W, used: u32, steps: u32 }", "plain::PlainEnding"),
        ("crates/engine/src/lib.rt", "        f: i32,\n        x: i32,\n        steps: u32,", "        x: i32,\n        f: i32,\n        steps: u32,", "engine::Ending"),
        ("crates/loader/specs/Answer.antt", "nodes = c.nodes; exports = c.exports", "nodes = c.exports; exports = c.nodes", "loader::Accepted"),
    ):
        yield f"fields of {name} in another order", {path: texts[path].replace(old, new, 1)}, f"{name}: {ANSWERS[name]} takes"
    yield "a contract of another form", other("engine::run", "ensures {", "ensures {\n       "), "engine::run: its contract is not understood"
    for name, old, new in (
        ("loader::load", "accept, load}", "accept as load}"),
        ("loader::load", "accept, load}", "accept, load as other}"),
        ("loader::load", ".{records_in", ".{load as other, records_in"),
        ("engine::run", "specs.Run.{ran", "specs.Step.{ran"),
        ("bundle::check", "Prelude.{◌≡◌", "Prelude.{◌≤◌ as ◌≡◌"),
        ("bundle::check", "Rattle.std.specs.Prelude.", "Rattle.std.specs.Other."),
        ("listing::list", "length, take, drop}", "length, drop as take, drop}"),
        ("arboricx::arboricx_sha256", "ghost use Rattle.sha256_block", "ghost use Rattle.sha256"),
        ("arboricx::arboricx_load", "ghost use Rattle.loader", "ghost use Rattle.engine.specs.Run.{run as load};\nghost use Rattle.loader"),
    ):
        path = sources.item(name)[0]
        yield f"'{new}' in {path}", {path: texts[path].replace(old, new, 1)}, f"{name}: '"
    for path in ("crates/arboricx/src/lib.rt", "crates/fuel/src/lib.rt"):
        new = '\n#[unsafe(no_mangle)]\npub extern "C" fn arboricx_new()\n    ensures { }\n{\n}\n'
        yield f"a call for C of {path} that no row has", {path: texts[path] + new}, "::arboricx_new: stands in no row"
        yield f"a call for C of {path} that is not known", {path: texts[path] + new}, "::arboricx_new: tests/contracts.py does not know"
    path = "crates/arboricx/src/lib.rt"
    new = texts[path].replace("#[unsafe(no_mangle)]\n", "", 1)
    yield "a call that is not exported", {path: new}, "arboricx::arboricx_version: is not exported for C"
    new = texts["README.md"].replace("| `bundle::check(file)` |", "| |")
    yield "a public call left out of README.md", {"README.md": new}, "bundle::check: a public call that the table has not"
    new = texts["README.md"].replace("`bundle::check(file)`", "`bundle::check(file)`, `check_names(file)`")
    yield "a call more in README.md", {"README.md": new}, "bundle::check_names: is called public"
