#!/usr/bin/env python3
"""Whether include/arboricx.h, the archive and the Rattle source that it is made of agree.

    tests/header.py ARCHIVE

Names: the functions that the header declares are those that the source exports and the archive defines, and the archive wants
nothing else than memcpy and memset. Arguments: each function is declared once more, as its source has it, beside the header; the
compiler refuses two declarations that differ. The arguments have the same names too, and what the header tells the compiler of
pointers and lengths is so. Sizes: each lent array has the length that the source says, and each limit of the header is the source's
constant, as is its version, which is also the newest of CHANGELOG.md. Each number has the name and the text that are listed here. The
archive has no variable. The header is C99, C11 and C++. A compiler that knows the attributes warns of a null table, a short answer and a
length that is too long.

Then the same is asked of headers that are wrong, each in one place; the test fails if one of them passes.
"""

import pathlib
import re
import shutil
import subprocess
import sys
import tempfile

ROOT = pathlib.Path(__file__).resolve().parent.parent
SOURCE = "\n".join(path.read_text() for path in sorted((ROOT / "crates/arboricx/src").glob("*.rt")))
HEADER = (ROOT / "include/arboricx.h").read_text()
SIZES = (ROOT / "crates/sizes/src/lib.rt").read_text()
LIMITS = (ROOT / "crates/table/src/limits.rt").read_text()
SLOTS = (ROOT / "crates/table/src/slots.rt").read_text()
FRAMES = (ROOT / "crates/frames/src/lib.rt").read_text()
APPLYING = (ROOT / "crates/applying/src/lib.rt").read_text()
CHANGES = (ROOT / "CHANGELOG.md").read_text()
README = (ROOT / "README.md").read_text()

# a length or a place has 64 bits in the archive of every processor
C_TYPE = {"u8": "uint8_t", "u32": "uint32_t", "i32": "int32_t", "usize": "uint64_t"}


# a table that a call fills without reading it; all other tables that are not const are read, too
FILLED = {("arboricx_load", "words"), ("arboricx_load", "exports"), ("arboricx_run", "jobs")}
ATTRIBUTES = {
    "NONNULL": "__attribute__((nonnull))",
    "READS(table, length)": "__attribute__((access(read_only, table, length)))",
    "CHANGES(table, length)": "__attribute__((access(read_write, table, length)))",
    "FILLS(table, length)": "__attribute__((access(write_only, table, length)))",
}
# document 01's numbers and those of 02, their names for C, and their texts
NUMBERS = [
    (0, "OK", "no fault"),
    (1, "FILE_TOO_LONG", "the file is over 65,536 bytes"),
    (2, "FILE_TOO_SHORT", "the file is under 32 bytes"),
    (3, "OTHER_MAGIC", "the file does not begin with ARBORICX"),
    (4, "OTHER_MAJOR", "the major version of the file is not 1"),
    (5, "NO_DIRECTORY", "the section count or the place of the directory is wrong"),
    (6, "CRITICAL_SECTION", "a section of unknown type is critical"),
    (7, "CODED_SECTION", "a section is compressed, or its digest is not SHA-256"),
    (8, "SECTION_OUTSIDE", "a section passes the end of the file"),
    (9, "SECTION_REPEATED", "there are two manifests, or two nodes sections"),
    (10, "SECTION_MISSING", "the manifest or the nodes section is missing"),
    (11, "DIGEST_DIFFERS", "the digest of a section differs"),
    (12, "MANIFEST_SHAPE", "the manifest is not well formed"),
    (13, "UNSUPPORTED", "the manifest asks for something that is not supported"),
    (14, "EXPORT_NAMES", "an export name is empty, over 64 bytes, or used twice"),
    (15, "NODES_SHAPE", "the nodes section is not well formed, or does not have 1 to 512 nodes"),
    (16, "HASH_WRONG", "the hash of a node is wrong"),
    (17, "HASH_TWICE", "two nodes carry the same hash"),
    (18, "CHILD_MISSING", "a child of a node is missing"),
    (19, "CIRCLE", "a node is its own descendant"),
    (20, "HASH_UNRESOLVED", "the node of a root or of an export is missing"),
    (21, "NO_ROOM", "the word table has no room, or the base or the used count is wrong"),
    (22, "EXPORTS_TOO_SHORT", "the export table is too short"),
    (23, "NO_SLOT", "a slot is not a used one"),
    (24, "DAMAGED", "the used slots or the waiting jobs are damaged"),
    (25, "NO_EXPORT", "there is no export of that name"),
    (31, "OUT_OF_FUEL", "stopped: the fuel is spent"),
    (32, "OUT_OF_SLOTS", "stopped: no slot is left"),
    (33, "OUT_OF_JOBS", "stopped: no place for a job is left"),
    (40, "TOO_MANY_STEPS", "the steps would pass 4,294,967,295"),
    (49, "TOO_DEEP", "a plain run takes at most 1,000 steps and 1,000 jobs"),
]


class Differs(Exception):
    pass


def agree(what, ours, theirs):
    if ours != theirs:
        raise Differs(f"{what}: {ours} and {theirs}")


def exported(source):
    """Each exported function: its result, and for each argument its name and its type."""
    found = {}
    for name, arguments, result in re.findall(r'#\[unsafe\(no_mangle\)\]\s*pub extern "C" fn (\w+)\((.*?)\)\s*(?:-> (\w+))?\s*ensures', source, re.S):
        pairs = [a.split(":", 1) for a in arguments.split(",\n" if "\n" in arguments else ", ") if a.strip()]
        found[name] = (result, [(n.strip(), t.strip().rstrip(",")) for n, t in pairs])
    agree("exports that were read", len(found), source.count("no_mangle"))
    return found


def in_c(name, kind):
    """An argument as C has it: names, types, and the length of a lent array."""
    if array := re.fullmatch(r"&mut \[(\w+); (\d+)\]", kind):
        return [(name, f"{C_TYPE[array[1]]} [{array[2]}]", int(array[2]))]
    if part := re.fullmatch(r"&(mut )?\[(\w+)\]", kind):
        return [(name, ("" if part[1] else "const ") + C_TYPE[part[2]] + " *", None), (name + "_len", "uint64_t", None)]
    return [(name, C_TYPE[kind], None)]


def declared(header):
    """Each function of the header: for each argument its name, and the length of a lent array as it is written; and its attributes."""
    text = re.sub(r"/\*.*?\*/|^#.*?(?<!\\)$", "", header, flags=re.S | re.M)
    text = re.sub(r"ARBORICX_AT_LEAST\((\w+)\)", r"\1", text)
    found = {}
    for name, arguments, attributes in re.findall(r"^\w+ (\w+)\(([^()]*)\)((?:\s+ARBORICX_\w+(?:\(\d+, \d+\))?)*);", text, re.M):
        listed = [] if arguments == "void" else arguments.split(",")
        found[name] = [re.fullmatch(r".*?(\w+)(?:\[(\w+)\])?", a.strip(), re.S).groups() for a in listed], attributes.split()
    return found


def judge_attributes(name, kinds, attributes):
    """No pointer is null, and each table that stands before its length is said to be that long, and how it is used."""
    wanted = ["ARBORICX_NONNULL"] if any(k[-1] in "*]" for _, k, _ in kinds) else []
    for place, (argument, kind, _) in enumerate(kinds, 1):
        if kind.endswith("*"):
            use = "READS" if kind.startswith("const") else "FILLS" if (name, argument) in FILLED else "CHANGES"
            wanted.append(f"ARBORICX_{use}({place}, {place + 1})")
    agree(f"attributes of {name}", " ".join(attributes), " ".join(wanted))


def judge_texts(header):
    """The numbers, their names and their texts are those of the list; and what the attributes are."""
    numbers = re.findall(r"^    ARBORICX_(\w+) = (\d+)", re.search(r"enum arboricx_number \{(.*?)\};", header, re.S)[1], re.M)
    texts = re.findall(r"^    case ARBORICX_(\w+): return \"([^\"]+)\";$", header, re.M)
    agree("the numbers", [(int(n), name) for name, n in numbers], [(n, name) for n, name, _ in NUMBERS])
    agree("the texts", texts, [(name, text) for _, name, text in NUMBERS])
    for name, meaning in ATTRIBUTES.items():
        if f"#define ARBORICX_{name} {meaning}\n" not in header:
            raise Differs(f"ARBORICX_{name} is not {meaning}")


def judge_version(header):
    """The version as a number, as text, in the source, and as the newest of the changes."""
    number = int(re.search(r"^#define ARBORICX_VERSION (\d+)$", header, re.M)[1])
    text = re.search(r'^#define ARBORICX_VERSION_TEXT "(.*)"$', header, re.M)[1]
    agree("the version as text", text, f"{number // 10000}.{number // 100 % 100}.{number % 100}")
    agree("the version of the source", int(re.search(r"fn arboricx_version\(\).*?^    (\d+)$", SOURCE, re.S | re.M)[1]), number)
    agree("the newest version of CHANGELOG.md", re.search(r"^## (\S+)", CHANGES, re.M)[1], text)
    agree("the version of what is packed, in README.md", set(re.findall(r"arboricx-([0-9.]+)\.tar", README)), {text})


def symbols(archive):
    listed = subprocess.run(["nm", archive], check=True, capture_output=True, text=True).stdout
    kinds = {"T": set(), "U": set()}
    for kind, name in re.findall(r" ([A-Za-z]) (\S+)$", listed, re.M):
        kinds.setdefault(kind, set()).add(name)
    return kinds


def variables(archive):
    """The sections of an archive that can be written and have anything in them."""
    listed = subprocess.run(["readelf", "-SW", archive], check=True, capture_output=True, text=True).stdout
    sections = re.findall(r"\] (\S+) +\S+ +[0-9a-f]+ [0-9a-f]+ ([0-9a-f]+) [0-9a-f]+ +([A-Z]*W[A-Z]*) ", listed)
    return [name for name, size, _ in sections if int(size, 16) > 0]


def limits():
    """The constants of the source behind the limits of the header."""
    most = {n: int(m) for n, m in re.findall(r"const (\w+): Size = Size \{.*?most: (\d+)", SIZES, re.S)}
    cap = {n: int(m) for n, m in re.findall(r"const (\w+): Limit = Limit\((\d+)\)", LIMITS)}
    return {
        "ARBORICX_MAX_FILE": most["FILE"],
        "ARBORICX_MAX_NODES": most["NODES"],
        "ARBORICX_MAX_EXPORTS": most["EXPORTS"],
        "ARBORICX_MAX_NAME": most["NAME"],
        "ARBORICX_MAX_SLOTS": cap["SLOTS"],
        "ARBORICX_MAX_JOBS": cap["FRAMES"],
        "ARBORICX_SLOT_WORDS": int(re.search(r"const WORDS: usize = (\d+)", SLOTS)[1]),
        "ARBORICX_JOB_WORDS": int(re.search(r"const WORDS: usize = (\d+)", FRAMES)[1]),
        "ARBORICX_MAX_PLAIN": int(re.search(r"const MOST: u32 = (\d+)", APPLYING)[1]),
    }


def second_opinion(functions, header):
    """C text that the compiler takes only if the header agrees with the source."""
    lines = ['#include "arboricx.h"']
    for name, (result, arguments) in functions.items():
        kinds = [a for n, t in arguments for a in in_c(n, t)]
        lines.append(f"{C_TYPE.get(result, 'void')} {name}({', '.join(k for _, k, _ in kinds) or 'void'});")
        for (_, bound), (argument, _, length) in zip(header[name][0], kinds):
            agree(f"{name}, whether {argument} is a lent array", bound is not None, length is not None)
            if bound is not None:
                lines.append(f'_Static_assert({bound} == {length}, "{name}, {argument}");')
    lines += [f'_Static_assert({name} == {value}, "{name}");' for name, value in limits().items()]
    lines.append(f"void (*const volatile calls[])(void) = {{{', '.join(f'(void (*)(void)){name}' for name in functions)}}};")
    return "\n".join([*lines, "int main(void) { return calls[0] == 0; }", ""])


def compiles(command, label):
    done = subprocess.run(command, capture_output=True, text=True)
    if done.returncode != 0:
        raise Differs(f"{label}: {done.stderr or done.returncode}")


def judge(header_text, archive):
    functions, header, names = exported(SOURCE), declared(header_text), symbols(archive)
    agree("names of the header and of the source", sorted(header), sorted(functions))
    agree("names of the archive and of the source", sorted(names["T"]), sorted(functions))
    agree("what the archive wants", sorted(names["U"] - {"memcpy", "memset"}), [])
    agree("kinds of names in the archive: functions, constants, what it wants", sorted(set(names) - set("TtRrU")), [])
    agree("variables of the archive", variables(archive), [])
    for name, (_, arguments) in functions.items():
        kinds = [a for n, t in arguments for a in in_c(n, t)]
        agree(f"arguments of {name}", [n for n, _ in header[name][0]], [n for n, _, _ in kinds])
        judge_attributes(name, kinds, header[name][1])
    judge_texts(header_text)
    judge_version(header_text)
    with tempfile.TemporaryDirectory() as folder:
        here = pathlib.Path(folder)
        (here / "arboricx.h").write_text(header_text)
        (here / "agree.c").write_text(second_opinion(functions, header))
        (here / "agree.cc").write_text('#include "arboricx.h"\nint main() { return 0; }\n')
        strict = ["-Wall", "-Wextra", "-Wpedantic", "-Werror", "-I", folder]
        compiles(["cc", "-std=c11", *strict, here / "agree.c", archive, "-o", here / "agree"], "C11")
        compiles([here / "agree"], "every name is linked")
        compiles(["cc", "-std=c99", *strict, "-fsyntax-only", "-x", "c", here / "arboricx.h"], "C99")
        compiles(["c++", *strict, here / "agree.cc", "-o", here / "agree"], "C++")


# programs that a compiler is to warn of, and whether clang does too
MISUSE = [
    ("a short answer", "uint32_t a[2]; return (int)arboricx_load(file, 9, words, 9, 0, words, 0, a);", True),
    ("a null table", "uint32_t a[3]; return (int)arboricx_load(file, 9, 0, 0, 0, words, 9, a);", True),
    ("a null file", "return (int)arboricx_check(0, 0);", True),
    ("a length in bytes", "uint32_t a[6]; return (int)arboricx_run(words, sizeof words, 0, 0, 0, 1, 1, words, 9, a);", False),
    ("a file that is not so long", "return (int)arboricx_check(file, 10);", False),
    ("an export table that is not so long", "uint32_t a[3]; return (int)arboricx_load(file, 9, words, 9, 0, words, 10, a);", False),
    ("a job table that is not so long", "uint32_t a[6]; return (int)arboricx_run(words, 9, 0, 0, 0, 1, 1, words, 10, a);", False),
]
RIGHT = "uint32_t a[6], e[9], j[9]; arboricx_load(file, 9, words, 9, 0, e, 9, a); return (int)arboricx_run(words, 9, 0, 0, 0, 1, 1, j, 9, a);"


def judge_misuse():
    """A compiler warns of each misuse, and not of the right use."""
    for compiler in filter(shutil.which, ["gcc", "clang"]):
        command = [compiler, "-std=c11", "-O1", "-Wall", "-Wextra", "-Werror", "-I", ROOT / "include", "-x", "c", "-c", "-", "-o", "/dev/null"]
        for label, body, everywhere in [("the right use", RIGHT, None), *MISUSE]:
            program = f'#include "arboricx.h"\nuint8_t file[9];\nuint32_t words[9];\nint call(void);\nint call(void) {{ {body} }}\n'
            taken = subprocess.run(command, input=program, capture_output=True, text=True).returncode == 0
            if everywhere is None or everywhere or compiler == "gcc":
                agree(f"whether {compiler} takes {label}", taken, everywhere is None)


WRONG = [
    ("another name", "arboricx_load(", "arboricx_lade("),
    ("a call that is not there", "uint32_t arboricx_check(", "uint32_t arboricx_test(void);\nuint32_t arboricx_check("),
    ("an unsigned base", "uint64_t words_len, int32_t base,\n                       uint32_t *exports", "uint64_t words_len, uint32_t base,\n                       uint32_t *exports"),
    ("a short length", "uint32_t fuel,\n                      uint32_t *jobs, uint64_t jobs_len", "uint32_t fuel,\n                      uint32_t *jobs, uint32_t jobs_len"),
    ("a file that is written", "arboricx_check(const uint8_t *file", "arboricx_check(uint8_t *file"),
    ("f and x swapped", "int32_t f, int32_t x, uint32_t used, uint32_t fuel,\n", "int32_t x, int32_t f, uint32_t used, uint32_t fuel,\n"),
    ("no fuel", "uint32_t used, uint32_t fuel,\n", "uint32_t used,\n"),
    ("jobs and steps swapped", "uint32_t waiting, uint32_t steps,", "uint32_t steps, uint32_t waiting,"),
    ("no earlier steps", "uint32_t waiting, uint32_t steps, uint32_t fuel,", "uint32_t waiting, uint32_t fuel,"),
    ("fuel and job room swapped", "uint32_t fuel, uint32_t job_room,", "uint32_t job_room, uint32_t fuel,"),
    ("a wide job room", "uint32_t fuel, uint32_t job_room,", "uint32_t fuel, uint64_t job_room,"),
    ("a result", "void arboricx_export_name(", "uint32_t arboricx_export_name("),
    ("no result", "uint32_t arboricx_run(", "void arboricx_run("),
    ("a short answer", "    ARBORICX_RUN_JOBS, ", "    "),
    ("a short plain answer", "    ARBORICX_PLAIN_USED,\n", ""),
    ("words for places", "uint64_t answer[ARBORICX_AT_LEAST(ARBORICX_NAME_ANSWER)]", "uint32_t answer[ARBORICX_AT_LEAST(ARBORICX_NAME_ANSWER)]"),
    ("another limit", "ARBORICX_MAX_SLOTS 65535", "ARBORICX_MAX_SLOTS 65536"),
    ("a half digest", "ARBORICX_DIGEST_BYTES 32", "ARBORICX_DIGEST_BYTES 16"),
    ("a length that depends on the processor", "arboricx_check(const uint8_t *file, uint64_t file_len)", "arboricx_check(const uint8_t *file, size_t file_len)"),
    ("a number with no text", '    case ARBORICX_TOO_DEEP: return "a plain run takes at most 1,000 steps and 1,000 jobs";\n', ""),
    ("two numbers swapped", "ARBORICX_HASH_WRONG = 16,     ", "ARBORICX_HASH_WRONG = 17,     "),
    ("another job", "ARBORICX_JOB_WORDS 3", "ARBORICX_JOB_WORDS 4"),
    ("words that are filled by a run", "ARBORICX_CHANGES(1, 2) ARBORICX_FILLS(8, 9)", "ARBORICX_FILLS(1, 2) ARBORICX_FILLS(8, 9)"),
    ("an attribute that says nothing", "__attribute__((access(write_only, table, length)))", ""),
    ("one text for two numbers", '"the hash of a node is wrong"', '"two nodes carry the same hash"'),
    ("another version", "#define ARBORICX_VERSION ", "#define ARBORICX_VERSION 1"),
    ("a table with another's length", "ARBORICX_READS(1, 2) ARBORICX_FILLS(3, 4)", "ARBORICX_READS(1, 4) ARBORICX_FILLS(3, 2)"),
    ("jobs that are only read", "ARBORICX_CHANGES(1, 2) ARBORICX_CHANGES(10, 11)", "ARBORICX_CHANGES(1, 2) ARBORICX_READS(10, 11)"),
]


def main(archive):
    judge(HEADER, archive)
    judge_misuse()
    for label, old, new in WRONG:
        agree(f"places to try '{label}' at", HEADER.count(old), 1)
        try:
            judge(HEADER.replace(old, new), archive)
        except Differs:
            continue
        raise Differs(f"a header with {label} passes")
    print(f"header: {len(exported(SOURCE))} calls agree; {len(WRONG)} wrong headers are refused")


if __name__ == "__main__":
    try:
        main(str(pathlib.Path(sys.argv[1]).resolve()))
    except Differs as difference:
        sys.exit(f"header: {difference}")
