"""Compares include/zundrafl.rs with include/zundrafl.h: constants, structs, functions with their parameters."""
import re
import sys

KINDS = {
    "size_t": "usize", "uint64_t": "u64", "uint8_t": "u8", "void": "",
    "zundrafl_session": "Session", "zundrafl_answer": "Answer", "zundrafl_layout": "Layout",
}


def header(text):
    text = re.sub(r"/\*.*?\*/", "", text, flags=re.S)
    found = {}
    for name, value in re.findall(r"ZUNDRAFL_(\w+)\s*=\s*(\d+)", text):
        found[name] = value
    for fields, name in re.findall(r"typedef struct \{(.*?)\} zundrafl_(\w+);", text, flags=re.S):
        found[name.capitalize()] = [
            (field.strip(), KINDS[kind]) for kind, names in re.findall(r"(\w+) ([^;]+);", fields) for field in names.split(",")
        ]
    for result, name, parameters in re.findall(r"^(void|size_t) (zundrafl_\w+)\(([^)]*)\);", text, flags=re.M):
        found[name] = [KINDS[result]]
        for parameter in parameters.split(","):
            constant, kind, pointer, named = re.match(r"\s*(const )?(\w+) (\*?)(\w+)", parameter).groups()
            found[name].append((named, ("*const " if constant else "*mut ") * bool(pointer) + KINDS[kind]))
    return found


def rust(text):
    text = re.sub(r"//.*", "", text)
    found = {name: value for name, value in re.findall(r"pub const (\w+): \w+ = (\d+);", text)}
    for name, fields in re.findall(r"pub struct (\w+) \{(.*?)\}", text, flags=re.S):
        found[name] = re.findall(r"pub (\w+): (\w+),", fields)
    for name, parameters, result in re.findall(r"pub fn (zundrafl_\w+)\(([^)]*)\)(?: -> (\w+))?;", text):
        found[name] = [result] + re.findall(r"(\w+): ((?:\*\w+ )?\w+)", parameters)
    return found


def main():
    with open("include/zundrafl.h") as c, open("include/zundrafl.rs") as r:
        wanted, got = header(c.read()), rust(r.read())
    wrong = sorted(name for name in wanted.keys() | got.keys() if wanted.get(name) != got.get(name))
    for name in wrong:
        print(f"{name}: {wanted.get(name)} in the header, {got.get(name)} for Rust")
    if wrong or sum(name.startswith("zundrafl_") for name in wanted) < 19:
        sys.exit(1)
    print(f"{len(wanted)} declarations for Rust are those of the header")


main()
