"""The functions of a built library and their instructions, as objdump lists them, and the constants that they read."""
import re
import struct
import subprocess
from typing import NamedTuple, Optional


class NotUnderstood(Exception):
    """The machine code has something for which no bound on the stack is known."""


class Instruction(NamedTuple):
    address: int
    mnemonic: str
    operands: tuple
    # The address that the instruction names, as the target of a jump or behind %rip, and the name that stands there.
    named: Optional[int] = None
    symbol: str = ""


class Function(NamedTuple):
    name: str
    # By address, in order.
    code: dict


# Numbers of the ELF format: kinds of segments, and two tags of the dynamic one.
LOADED, DYNAMIC, FLAGS, FLAGS_1 = 1, 2, 30, 0x6FFFFFFB

PREFIXES = {"rep", "repz", "repnz", "lock", "bnd", "notrack", "data16", "cs", "ds", "es", "fs", "gs", "ss", "rex.W"}

HEADING = re.compile(r"^([0-9a-f]+) <(.*)>:$")
LINE = re.compile(r"^ *([0-9a-f]+):\t(.*?)\s*$")
COMMENT = re.compile(r"\s+# ([0-9a-f]+)(?: <(.*)>)?$")
TARGET = re.compile(r"^([0-9a-f]+) <(.*)>$")


def operands_of(text):
    """The operands of an instruction: what commas part, but for those in brackets."""
    return tuple(part.strip() for part in re.split(r",(?![^(]*\))", text)) if text else ()


def instruction_of(address, text):
    named, symbol = None, ""
    comment = COMMENT.search(text)
    if comment:
        named, symbol = int(comment[1], 16), comment[2] or ""
        text = text[: comment.start()]
    words = text.split(None, 1)
    while words and words[0] in PREFIXES:
        words = words[1].split(None, 1) if len(words) > 1 else ["nop"]
    if not words or words[0].startswith("("):
        raise NotUnderstood(f"{address:x}: {text}")
    rest = words[1] if len(words) > 1 else ""
    target = TARGET.match(rest)
    if target:
        return Instruction(address, words[0], (), int(target[1], 16), target[2])
    return Instruction(address, words[0], operands_of(rest), named, symbol)


def functions_of(listing):
    """The functions of a listing, by the address at which they begin."""
    functions, code = {}, {}
    for line in listing.splitlines():
        heading = HEADING.match(line)
        if heading:
            code = {}
            functions[int(heading[1], 16)] = Function(heading[2], code)
            continue
        found = LINE.match(line)
        if found:
            address = int(found[1], 16)
            code[address] = instruction_of(address, found[2])
    return functions


class Library:
    """A shared library for x86-64: its functions, and the bytes that are loaded from its file."""

    def __init__(self, path):
        self.file = path.read_bytes()
        shown = subprocess.run(
            ["objdump", "-d", "--no-show-raw-insn", str(path)], check=True, capture_output=True, text=True
        )
        self.functions = functions_of(shown.stdout)

    def _segments(self, wanted):
        """(first address, offset in the file, bytes) of the segments of a kind."""
        if self.file[:6] != b"\x7fELF\x02\x01":
            raise NotUnderstood("the file is no ELF file of 64 bits")
        (first,) = struct.unpack_from("<Q", self.file, 32)
        size, count = struct.unpack_from("<HH", self.file, 54)
        for at in range(first, first + size * count, size):
            (kind,) = struct.unpack_from("<I", self.file, at)
            offset, address, _, length = struct.unpack_from("<QQQQ", self.file, at + 8)
            if kind == wanted:
                yield address, offset, length

    def number_at(self, address):
        """The signed number of 32 bits at an address, None where nothing is loaded."""
        for first, offset, length in self._segments(LOADED):
            if first <= address and address + 4 <= first + length:
                return struct.unpack_from("<i", self.file, offset + address - first)[0]
        return None

    def binds_when_loaded(self):
        """Whether outside names are bound when the library is loaded, not at their first call, on the caller's stack."""
        for _, offset, length in self._segments(DYNAMIC):
            for at in range(offset, offset + length, 16):
                tag, value = struct.unpack_from("<QQ", self.file, at)
                if (tag, value & 8) == (FLAGS, 8) or (tag, value & 1) == (FLAGS_1, 1):
                    return True
        return False
