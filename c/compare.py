#!/usr/bin/env python3
"""Compares nio.h with the exports of crates/nio_c and with rust/src/raw.rs: functions, structs, statuses; and with the
names in the archive."""
import re
import subprocess
import sys
from pathlib import Path

HERE = Path(__file__).resolve().parent
CRATE = HERE.parent / "crates" / "nio_c"
ARCHIVE = CRATE / "out" / "libnio_c.a"
RAW = HERE.parent / "rust" / "src" / "raw.rs"

# A Rattle type, and what C calls it.
NAMES = {
    "u8": "nio_ops",
    "u32": "uint32_t",
    "u64": "uint64_t",
    "i64": "int64_t",
    "usize": "size_t",
    "bool": "bool",
    "Handle": "nio_caller",
    "TableLimits": "nio_limits",
    "Channel": "nio_channel",
    "Key": "nio_key",
    "Looked": "nio_looked",
    "Changed": "nio_changed",
    "Pair": "nio_pair",
    "Selection": "nio_selected",
}


def split(parameters):
    return [it.strip() for it in re.split(r",(?![^\[]*\])", parameters) if it.strip()]


def c_types(rattle):
    """The types of C's parameters for one of Rattle's."""
    if rattle == "Global":
        return []
    slice_of = re.fullmatch(r"&(mut )?\[(\w+)\]", rattle)
    if slice_of:
        return [("" if slice_of[1] else "const ") + NAMES[slice_of[2]] + " *", "size_t"]
    behind = re.fullmatch(r"&(mut )?(\w+)", rattle)
    if behind:
        return [("" if behind[1] else "const ") + NAMES[behind[2]] + " *"]
    return [NAMES[rattle]]


def exports(text):
    form = r'#\[unsafe\(no_mangle\)\]\s*pub extern "C" fn (\w+)\((.*?)\) -> u32\b'
    for name, parameters in re.findall(form, text, re.S):
        types = []
        for parameter in split(parameters):
            types += c_types(parameter.split(":", 1)[1].strip())
        yield name, types


def prototypes(text):
    for name, parameters in re.findall(r"^nio_status (\w+)\((.*?)\);", text, re.S | re.M):
        types = []
        for parameter in split(re.sub(r"\s+", " ", parameters)):
            found = re.fullmatch(r"(.*?)\s*(\*?)\s*\w+", parameter)
            types.append(found[1] + " *" if found[2] else found[1])
        yield name, types


def rattle_structs(text):
    for name, body in re.findall(r"#\[repr\(C\)\].*?pub struct (\w+) \{(.*?)\n\}", text, re.S):
        body = re.sub(r"//.*", "", body)
        fields = re.findall(r"^\s*(?:pub )?(\w+): ([^,{]+),", body, re.M)
        fields = [(field, "void *" if kind == "*mut u8" else NAMES[kind]) for field, kind in fields]
        yield NAMES[name], fields


def c_structs(text):
    for name, body in re.findall(r"^typedef struct (\w+) \{(.*?)\n\}", text, re.S | re.M):
        yield name, [
            (field, kind + " *" if star else kind)
            for kind, star, field in re.findall(r"^\s*([\w ]+?) (\*?)(\w+);", body, re.M)
        ]


def rattle_statuses(text):
    body = re.search(r"pub enum Status \{(.*?)\n\}", text, re.S)[1]
    for name, number in re.findall(r"(\w+) = (\d+),", body):
        yield "NIO" + re.sub(r"([A-Z])", r"_\1", name).upper(), number


def c_statuses(text):
    return re.findall(r"(NIO_\w+) = (\d+)(?=[^\n]*(?:/\*|,\n|\n\}))", text[text.index("NIO_DONE") :])


def raw_type(rust):
    """C's type for one of raw.rs."""
    behind = re.fullmatch(r"\*(mut|const) (\w+)", rust)
    if behind:
        return ("const " if behind[1] == "const" else "") + raw_type(behind[2]) + " *"
    return {"c_void": "void", **NAMES}.get(rust, rust)


def raw_parts(text):
    return [(name, raw_type(kind)) for name, kind in re.findall(r"(\w+): ((?:\*(?:mut|const) )?\w+)", text)]


def raw_functions(text):
    for name, parameters in re.findall(r"pub fn (\w+)\((.*?)\) -> nio_status;", text, re.S):
        yield name, [kind for _, kind in raw_parts(parameters)]


def raw_structs(text):
    for name, body in re.findall(r"pub struct (\w+) \{(.*?)\}", text.replace("std::ffi::", ""), re.S):
        yield name, raw_parts(body)


def raw_statuses(text):
    return re.findall(r"pub const (NIO_\w+): nio_status = (\d+);", text)


def differ(what, here, there, place):
    """Prints what stands in the header or in that place alone; answers how much."""
    here, there = dict(here), dict(there)
    count = 0
    for name in sorted(set(here) | set(there)):
        if here.get(name) != there.get(name):
            print(f"{what} {name}: nio.h has {here.get(name)}, {place} {there.get(name)}")
            count += 1
    print(f"{what}: {len(here)} in nio.h, {len(there)} in {place}, {count} differ")
    return count


def archive_names():
    lines = subprocess.run(["nm", "-g", "--defined-only", ARCHIVE], capture_output=True, text=True, check=True).stdout
    return [(name, "defined") for name in re.findall(r" T (nio_\w+)$", lines, re.M)]


def main():
    header = (HERE / "nio.h").read_text()
    crate = "\n".join(path.read_text() for path in sorted((CRATE / "src").glob("*.rt")))
    raw = RAW.read_text()
    declared = list(prototypes(header))
    structs = list(c_structs(header))
    statuses = c_statuses(header)
    count = differ("functions", declared, exports(crate), "nio_c")
    count += differ("structs", structs, rattle_structs(crate), "nio_c")
    count += differ("statuses", statuses, rattle_statuses(crate), "nio_c")
    count += differ("functions", declared, raw_functions(raw), "raw.rs")
    count += differ("structs", structs, raw_structs(raw), "raw.rs")
    count += differ("statuses", statuses, raw_statuses(raw), "raw.rs")
    if ARCHIVE.exists():
        count += differ("names", [(name, "defined") for name, _ in declared], archive_names(), "the archive")
    else:
        print(f"no archive yet: {ARCHIVE}")
    sys.exit(1 if count else 0)


main()
