#!/usr/bin/env python3
"""Compares what crosses the border of the static library, which is written down four times: in crates/cc_capi and
crates/cc_passes; in the headers bindings/c/vahepito.h and handles.h; in the crate bindings/rust; and in
bench/peers/src/exports.rs.

    tests/border.py

Codes, the version, the exports with their parameters, and the fields of the structs. Exit status 0 if all are the same.
"""
import pathlib
import re
import sys

sys.dont_write_bytecode = True
import asked
sys.path.insert(0, str(pathlib.Path(__file__).resolve().parent.parent / "tools"))
from sources import TOP, read_items

# Codes that the header has for itself.
OF_THE_HEADER = {"BAD_VERSION"}
# The code of the headers that has another name in the library: one number of places is for both sides.
RENAMED = {"BAD_PLACES": "BAD_SENDERS"}
# The numbers that are no code any more.
FREE = {16}
# The structs by their names in the header, in the library, and in the Rust crate.
STRUCTS = [
    ("vahepito_config", "Settings", "Config"),
    # The crate has the items as arrays of words, and compares their sizes with the library's when it opens a queue.
    ("vahepito_word_item", "TakenItem", "Taken"),
    ("vahepito_item", "TakenWords", "Taken"),
]
# Those of the bench, which has items of one word as the library has them.
OF_THE_BENCH = [("vahepito_config", "Settings", "Config"), ("vahepito_word_item", "TakenItem", "Item")]
# Types as C has them. The crate lends a pass as a Pass or as a Handle, which has nothing beside it.
IN_C = {"u32": "uint32_t", "u64": "uint64_t", "usize": "size_t", "Handle": "vahepito_handle", "Raw": "vahepito_handle"}
IN_C.update({name: in_c for in_c, *names in STRUCTS + OF_THE_BENCH for name in names if name})
# What has no bytes.
NOTHING = {"Global"}


def in_c(name, kind):
    """A parameter or a field as C writes it, from Rust: a slice is a pointer and a count."""
    if kind in NOTHING:
        return []
    found = re.fullmatch(r"(&|\*const |&mut |\*mut )(\[?)(\w+)\]?", kind)
    if found:
        const = "const " if found[1] in ("&", "*const ") else ""
        pointer = f"{const}{IN_C.get(found[3], found[3])} *{name}"
        return [pointer, "size_t count"] if found[2] else [pointer]
    array = re.fullmatch(r"\[(\w+); (\w+)\]", kind)
    if array:
        return [f"{IN_C.get(array[1], array[1])} {name}[{array[2]}]"]
    return [f"{IN_C.get(kind, kind)} {name}"]


def from_rust(pairs):
    return [part for pair in pairs for part in in_c(*re.sub(r"^pub ", "", pair).split(": ", 1))]


def counted(parameters):
    """The parameters, where each count has one name."""
    return [re.sub(r"size_t \w*count$", "size_t count", " ".join(part.split())) for part in parameters]


def listed(text):
    return [part.strip() for part in text.split(",") if part.strip()]


def items_of(path):
    return read_items((TOP / "crates" / path).read_text())


def constants(path):
    return {item.name: int(item.body.replace("_", "")) for item in items_of(path) if item.kind == "const"}


def of_the_library():
    """Codes, version, exports and structs of the library."""
    codes = constants("cc_passes/src/return_codes.rt")
    version = constants("cc_capi/src/version.rt")["VERSION"]
    exports = {}
    for item in items_of("cc_capi/src/handle_exports.rt"):
        if item.kind == "fn" and 'extern "C"' in item.head:
            parameters, result = re.search(r"\((.*)\)(?: -> (\w+))?$", item.head).groups()
            exports[item.name] = [IN_C.get(result, "void")] + counted(from_rust(listed(parameters)))
    items = [item for path in (TOP / "crates/cc_passes/src").glob("*.rt") for item in items_of(path)]
    parts = {item.name: item.parts for item in items if item.kind == "struct"}
    return codes, version, exports, {name: from_rust(parts[library]) for name, library, _ in STRUCTS}


def of_the_headers():
    """The same of the headers; and the codes of vahepito.h by their numbers, with the sentences that vahepito_queue.c has
    for them. The functions of vahepito.h itself, which are in vahepito_queue.c, are no exports of the
    proved library."""
    own, handles, code = [
        re.sub(r"/\*.*?\*/", "", (TOP / "bindings/c" / name).read_text(), flags=re.S)
        for name in ("vahepito.h", "handles.h", "vahepito_queue.c")
    ]
    text, whole = re.search(r"^uint32_t vahepito_version\(.*$", own, re.M)[0] + "\n" + handles, own + "\n" + handles
    defined = dict(re.findall(r"^#define VAHEPITO_(\w+) (\d+)$", whole, re.M))
    codes = {name: int(number) for name, number in re.findall(r"^ *VAHEPITO_(\w+) = (\d+)", whole, re.M)}
    exports = {
        name: [result] + counted(listed(parameters) if parameters != "void" else [])
        for result, name, parameters in re.findall(r"^(uint32_t|uint64_t|size_t|void) (vahepito_\w+)\(([^)]*)\);", text,
                                                   re.M)
    }
    structs = {}
    for fields, name in re.findall(r"typedef struct \{(.*?)\} (\w+);", whole, re.S):
        fields = re.sub(r"\[VAHEPITO_(\w+)\]", lambda found: f"[{defined[found[1]]}]", fields)
        structs[name] = [" ".join(field.split()) for field in fields.split(";") if field.strip()]
    texts = re.findall(r'^ *CODE\((\w+), "(.*)"\),$', code, re.M)
    of_calls = sorted(re.findall(r"^ *VAHEPITO_(\w+) = \d+", own, re.M), key=codes.get)
    codes = {RENAMED.get(name, name): number for name, number in codes.items()}
    return codes, int(defined["VERSION"]), exports, {name: structs[name] for name, _, _ in STRUCTS}, of_calls, texts


def number_of(pattern, path):
    """The version whose three numbers the pattern finds in a file, as the library counts it."""
    digits = re.search(pattern, (TOP / path).read_text(), re.M)
    return int(digits[1]) * 1_000_000 + int(digits[2]) * 1_000 + int(digits[3])


def of_rust(paths, names):
    """Codes, exports and structs of these files, which name what they use: some of the codes and exports."""
    text = re.sub(r" *//[^\n]*", "", "\n".join(path.read_text() for path in paths))
    # A number that isn't written before a call has a type of the crate's own.
    for name, written in re.findall(r"\btype (\w+) = MaybeUninit<(\w+)>;", text):
        text = re.sub(rf"\b{name}\b", written, text)
    module = re.search(r"\bmod code \{(.*?)\n\}", text, re.S)
    codes = re.findall(r"\bconst (\w+): u32 = (\d+);", module[1] if module else text)
    codes = {name: int(number) for name, number in codes}
    exports = {
        name: [IN_C.get(result, "void")] + counted(from_rust(listed(" ".join(parameters.split()))))
        for name, parameters, result in re.findall(r"fn (vahepito_\w+)\(([^)]*)\)(?: -> (\w+))?;", text)
    }
    fields = dict(re.findall(r"#\[repr\(C\)\]\n(?:#\[derive[^\n]*\n)?(?:pub )?struct (\w+) {(.*?)\n}", text, re.S))
    structs = {name: from_rust(listed(" ".join(fields[own].split()))) for name, _, own in names if own in fields}
    return codes, exports, structs


def kinds(parameters):
    """The types of parameters or fields, whatever their names. The crate gives room for an item of words for each
    item."""
    return [re.sub(r"\w+(?=\[|$)", "", part).replace("word_item", "item") for part in parameters[1:]]


def is_same(kind, ours, theirs):
    return kinds(ours) == kinds(theirs) and ours[0] == theirs[0] if kind == "export" else ours == theirs


def differences():
    library, header = of_the_library(), of_the_headers()
    users = {
        "the crate": of_rust(sorted((TOP / "bindings/rust/src").rglob("*.rs")), STRUCTS),
        "the bench": of_rust([TOP / "bench/peers/src/exports.rs"], OF_THE_BENCH),
    }
    _, _, _, _, codes_of_calls, texts = header
    if set(header[0].values()) | FREE != set(range(len(header[0]) + len(FREE))):
        yield "the codes of vahepito.h aren't one number after the other"
    if [name for name, _ in texts] != codes_of_calls or len({text for _, text in texts}) != len(texts):
        yield "vahepito_queue.c doesn't have a sentence of its own for each code of vahepito.h"
    for name in OF_THE_HEADER:
        if name in library[0]:
            yield f"{name} is a code of the header alone, and the library has it too"
        library[0][name] = header[0].get(name)
    for where, (codes, *_) in {"the library": library, "the header": header, **users}.items():
        if len(set(codes.values())) < len(codes):
            yield f"two codes of {where} have one number"
    library_parts, header_parts = ((it[0], it[2], it[3]) for it in (library, header))
    for at, kind in enumerate(("code", "export", "struct")):
        for name in sorted(library_parts[at].keys() | header_parts[at].keys()):
            in_library, in_header = library_parts[at].get(name), header_parts[at].get(name)
            if in_header != in_library:
                yield f"{kind} {name}: the library has {in_library}, the headers {in_header}"
        for user, parts in users.items():
            for name, own in parts[at].items():
                in_library = library_parts[at].get(name)
                if in_library is None or not is_same(kind, own, in_library):
                    yield f"{kind} {name}: the library has {in_library}, {user} {own}"
    crate = number_of(r'^version = "(\d+)\.(\d+)\.(\d+)"', "bindings/rust/Cargo.toml")
    versions = {"cc_capi/src/version.rt": library[1], "vahepito.h": header[1], "bindings/rust/Cargo.toml": crate}
    versions["cc_line/src/help.rt"] = number_of(r'VERSION: &str = "(\d+)\.(\d+)\.(\d+)";', "crates/cc_line/src/help.rt")
    versions["bindings/rust/record/Cargo.toml"] = number_of(r'^version = "(\d+)\.(\d+)\.(\d+)"',
                                                            "bindings/rust/record/Cargo.toml")
    versions["the first heading of CHANGELOG.md"] = number_of(r"^## (\d+)\.(\d+)\.(\d+) ", "CHANGELOG.md")
    if len(set(versions.values())) > 1:
        yield "these versions disagree: " + ", ".join(f"{number} of {place}" for place, number in versions.items())


def main():
    found = list(differences())
    for line in found:
        print(f"border: {line}")
    if not found:
        print("border: the library, its headers, the Rust crate and the bench have the same codes, version, exports "
              "and structs")
    return 1 if found else 0


if __name__ == "__main__":
    sys.exit(main())
