"""Checks that the wrappers in examples/rust and examples/python have version, sizes, refusals, answer and frame of include/hitac.h."""
import pathlib
import re
import sys

root = pathlib.Path(__file__).resolve().parents[1]


def found(pattern, path):
    return dict(re.findall(pattern, (root / path).read_text(), re.MULTILINE))


def upper(name):
    """RuleMissing as RULE_MISSING."""
    return re.sub(r"(?<!^)(?=[A-Z])", "_", name).upper()


def numbers(around, one, path):
    """The names of an answer's numbers, in order: what one finds in the text that around takes out of the file."""
    return re.findall(one, re.search(around, (root / path).read_text(), re.DOTALL).group(1))


header = found(r"^#define HITAC_(\w+) (\d+)", "include/hitac.h")
# What the wrappers leave out: the limits, the file's numbers, and success.
for name in list(header):
    if name.startswith("MOST_") or name in ("LONGEST_FILE", "NO_FILE", "TABLE", "OTHER_FILE", "SUCCESS"):
        del header[name]

rust = found(r"^pub const (\w+): (?:usize|u32) = (\d+);", "examples/rust/src/raw.rs")
causes = found(r"^    (\w+) = (\d+),", "examples/rust/src/refusal.rs")
rust.update((upper(name), number) for name, number in causes.items() if name not in ("Neither", "Table", "Other"))
python = found(r"^ *([A-Z_]+) = (\d+)$", "examples/python/hitac.py")

for language, constants in (("rust", rust), ("python", python)):
    for name in sorted(header.keys() | constants.keys()):
        if header.get(name) != constants.get(name):
            sys.exit(f"constants: {name} is {header.get(name)} in the header and {constants.get(name)} in {language}")
answer = numbers(r"struct hitac_answer {(.*?)};", r"uint32_t (\w+);", "include/hitac.h")
in_rust = numbers(r"pub struct Answer {(.*?)}", r"pub (\w+): u32,", "examples/rust/src/raw.rs")
in_python = numbers(r'\n_NUMBERS = "(.*?)"', r"\w+", "examples/python/hitac.py")
if not answer == in_rust == in_python:
    sys.exit(f"constants: the answer is {answer} in the header, {in_rust} in rust and {in_python} in python")
# A frame's numbers have two widths.
frame = numbers(r"struct hitac_frame {(.*?)};", r"uint(\d+)_t (\w+);", "include/hitac.h")
in_rust = numbers(r"pub struct Frame {(.*?)}", r"pub (\w+): u(\d+),", "examples/rust/src/raw.rs")
in_python = numbers(r"class _Frame.*?\[(.*?)\]", r'"(\w+)", ctypes.c_uint(\d+)', "examples/python/hitac.py")
if not [(name, width) for width, name in frame] == in_rust == in_python:
    sys.exit(f"constants: a frame is {frame} in the header, {in_rust} in rust and {in_python} in python")
version = f"{header['VERSION_MAJOR']}.{header['VERSION_MINOR']}.0"
if found(r'^(version) = "(.*)"$', "examples/rust/Cargo.toml")["version"] != version:
    sys.exit(f"constants: examples/rust/Cargo.toml has not the version {version}")
print(f"constants: {len(header)}, the answer's {len(answer)} numbers and a frame's {len(frame)} are the same in the header, in Rust and in Python")
