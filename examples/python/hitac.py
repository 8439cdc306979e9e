"""The Hitac proof engine for Python, through ctypes. Works on bytes; a refused call raises Refusal.

The shared library is the file that the environment variable HITAC_LIBRARY names, or target/library/libhitac.so of
this repository.
"""
import ctypes
import enum
import os
import pathlib
from typing import NamedTuple

# The version of the header that this module follows.
VERSION_MAJOR = 2
VERSION_MINOR = 3

CHECK_WORK = 65536
RUN_WORK = 590848
FLATTEN_WORK = 200704
CHECK_FLAT_WORK = 65536
WRITE_PROOF_WORK = 65536
READ_TEXT_WORK = 196608
WRITE_TEXT_WORK = 36864
SEARCH_WORK = 2496256
RUN_HALTING_WORK = 751116
RESUME_WORK = 751116

# What the runs that may halt are lent besides: frames, and bytes for the saved state.
FRAMES = 16384
STATE = 160268

# Machine stack that each call needs, in bytes, besides what Python takes: for threads with small stacks.
CHECK_STACK = 1536
RUN_STACK = 200704
FLATTEN_STACK = 1536
CHECK_FLAT_STACK = 1536
WRITE_PROOF_STACK = 172032
READ_TEXT_STACK = 512
WRITE_TEXT_STACK = 1024
SEARCH_STACK = 1536
RUN_HALTING_STACK = 200704
RESUME_STACK = 200704

LONGEST_PROOF = 21510
LONGEST_FLAT = 16131
LONGEST_TERM = 20480
LONGEST_TEXT = 28671


class Cause(enum.IntEnum):
    """Why a call was refused, with the numbers of docs/FORMAT.md."""

    INPUT_TOO_LONG = 1
    FIELD_TORN = 2
    TAG_NOT_ALLOWED = 3
    LENGTH_WRONG = 4
    LIMIT_PASSED = 5
    RULE_REPEATED = 6
    PREMISE_COUNT_DIFFERS = 7
    TACTIC_REDEFINED = 8
    LABEL_REPEATED = 9
    RULE_MISSING = 20
    REMAINING_DIFFER = 21
    JOINED_TOO_LONG = 22
    TACTIC_FAILED = 23
    BUDGET_SPENT = 24
    BUDGET_TOO_LARGE = 25
    OUTPUT_TOO_SHORT = 26
    FLAT_WRONG = 27
    ENTRIES_TOO_MANY = 28
    WORK_TOO_SHORT = 29
    STATE_NOT_GENUINE = 30
    GOAL_COUNT_WRONG = 34
    GOALS_TOO_FEW = 35
    TEXT_WRONG = 36
    VALUE_TOO_LARGE = 37
    FIELDS_TOO_MANY = 40
    NO_EVALUATION = 41
    HEIGHT_OUTSIDE = 42

    def reason(self):
        """Why the hiproof of a proof does not validate, for a tool's users; None for any other refusal."""
        return _REASONS.get(self)


_REASONS = {
    Cause.RULE_MISSING: "the table has no rule of this name for the goal that the rule gets",
    Cause.GOAL_COUNT_WRONG: "a rule, id or label gets no goal or more than one, or an empty gets a goal",
    Cause.GOALS_TOO_FEW: "a tensor gets fewer goals than its left term takes",
}


class Refusal(Exception):
    """A refused call: its cause, the file (1 the table, 2 the other, 0 neither), the byte offset in it, the steps."""

    def __init__(self, answer):
        self.cause = Cause(answer.number)
        self.file = answer.file
        self.place = answer.place
        self.steps = answer.steps
        super().__init__(f"refused {int(self.cause)} file {self.file} place {self.place} steps {self.steps}")


class Version(NamedTuple):
    """The minor number goes up with each new call, the major number when programs have to be compiled anew."""

    major: int
    minor: int


class Accepted(NamedTuple):
    """What is counted in an accepted proof; as text, what the check program prints. The rules are those of the table that were
    used, so a name that was used on two goals counts twice."""

    fields: int
    uses: int
    open: int
    rules: int

    def __str__(self):
        return f"accepted fields {self.fields} uses {self.uses} open {self.open} rules {self.rules}"


class Right(NamedTuple):
    """What is counted in a right derivation; the rules as in an accepted proof."""

    uses: int
    open: int
    rules: int


class Ran(NamedTuple):
    """The proof file that a run or a search gives, and the terms that it began."""

    proof: bytes
    steps: int


class Halted(NamedTuple):
    """The saved state of a run whose budget is spent: for Engine.resume, and for a debugger that shows it."""

    state: bytes


# The last three are always 0 in this version; for later calls.
_NUMBERS = "number file place steps length fields uses remaining rules goals longest tactic"


class _Answer(ctypes.Structure):
    _fields_ = [(name, ctypes.c_uint32) for name in _NUMBERS.split()]


class _Frame(ctypes.Structure):
    _fields_ = [
        ("term", ctypes.c_uint32),
        ("goals", ctypes.c_uint32),
        ("count", ctypes.c_uint16),
        ("stage", ctypes.c_uint16),
    ]


_FILE = [ctypes.c_char_p, ctypes.c_size_t]
_SPACE = [ctypes.POINTER(ctypes.c_char), ctypes.c_size_t]
# Of the runs that may halt: work space, frames, output space, and the space for the saved state.
_HALTING = _SPACE + [ctypes.POINTER(_Frame), ctypes.c_size_t] + _SPACE + _SPACE
_CALLS = {
    "hitac_check": _FILE + _FILE + _SPACE,
    "hitac_run": _FILE + _FILE + [ctypes.c_uint32] + _SPACE + _SPACE,
    "hitac_flatten": _FILE + _FILE + _SPACE + _SPACE,
    "hitac_check_flat": _FILE + _FILE + _SPACE,
    "hitac_write_proof": _FILE + _FILE + _SPACE + _SPACE,
    "hitac_read_text": _FILE + _SPACE + _SPACE,
    "hitac_write_text": _FILE + _SPACE + _SPACE,
    "hitac_search": _FILE + _FILE + [ctypes.c_uint32, ctypes.c_uint32] + _SPACE + _SPACE,
    "hitac_run_halting": _FILE + _FILE + [ctypes.c_uint32] + _HALTING,
    "hitac_resume": _FILE + _FILE + _FILE + [ctypes.c_uint32] + _HALTING,
}


def _version_of(library):
    # 1.0 had no call for its version.
    if not hasattr(library, "hitac_version"):
        return Version(1, 0)
    library.hitac_version.restype = ctypes.c_uint32
    return Version(*divmod(library.hitac_version(), 65536))


def _load():
    built = pathlib.Path(__file__).resolve().parents[2] / "target" / "library" / "libhitac.so"
    library = ctypes.CDLL(os.environ.get("HITAC_LIBRARY", str(built)))
    version = _version_of(library)
    if version.major != VERSION_MAJOR or version.minor < VERSION_MINOR:
        raise OSError(f"the library has version {version.major}.{version.minor}, not {VERSION_MAJOR}.{VERSION_MINOR}")
    for name, arguments in _CALLS.items():
        call = getattr(library, name)
        call.argtypes = arguments
        call.restype = _Answer
    return library


class Engine:
    """The library, with the space that is lent to its calls. Not for two threads at the same time."""

    def __init__(self):
        self._library = _load()
        # the most demanding call is the search
        self._work = ctypes.create_string_buffer(SEARCH_WORK)
        self._out = ctypes.create_string_buffer(max(LONGEST_PROOF, LONGEST_FLAT, LONGEST_TERM, LONGEST_TEXT))
        self._frames = (_Frame * FRAMES)()
        self._state = ctypes.create_string_buffer(STATE)

    def version(self):
        """The version of the library that is loaded."""
        return _version_of(self._library)

    def check(self, table, proof):
        """Whether the proof is accepted in the table. Zero bytes are a proof, a blank document: no goals, the empty hiproof and
        none remaining. They are accepted, so do not pass b"" for a file that cannot be read."""
        answer = self._checks("hitac_check", CHECK_WORK, table, proof)
        return Accepted(answer.fields, answer.uses, answer.remaining, answer.rules)

    def run(self, table, job, budget):
        """Runs the tactic of the job in at most so many steps, of which 16,384 are the most."""
        _need_32_bits("a budget", budget)
        answer = self._writes("hitac_run", RUN_WORK, table, job, budget)
        return Ran(self._result(answer), answer.steps)

    def run_halting(self, table, job, budget):
        """As run, but a run whose budget is spent is no refusal: it is Halted. With a budget of 0 it halts before the first term."""
        _need_32_bits("a budget", budget)
        return self._steps("hitac_run_halting", RUN_HALTING_WORK, (table, job), budget)

    def resume(self, table, job, saved, budget):
        """Goes on with a halted run of the same table and job for so many more steps, all together 16,384 at most; comes to what
        run_halting comes to with all of them."""
        _need_32_bits("a budget", budget)
        return self._steps("hitac_resume", RESUME_WORK, (table, job, saved), budget)

    def search(self, table, job, height, budget):
        """Looks for an evaluation of the job's tactic that is at most so many rules high, 64 at most, in at most so many steps,
        of which 4,096 are the most."""
        _need_32_bits("a height", height)
        _need_32_bits("a budget", budget)
        answer = self._writes("hitac_search", SEARCH_WORK, table, job, height, budget)
        return Ran(self._result(answer), answer.steps)

    def flatten(self, table, proof):
        """The flat file of an accepted proof; of one of zero bytes, an empty goal list."""
        return self._result(self._writes("hitac_flatten", FLATTEN_WORK, table, proof))

    def check_flat(self, table, flat):
        """Whether the flat derivation is right in the table."""
        answer = self._checks("hitac_check_flat", CHECK_FLAT_WORK, table, flat)
        return Right(answer.uses, answer.remaining, answer.rules)

    def write_proof(self, table, flat):
        """The proof file of a right derivation."""
        return self._result(self._writes("hitac_write_proof", WRITE_PROOF_WORK, table, flat))

    def read_text(self, text):
        """The term file of a text in the notation, given as str or as bytes; a refusal's place counts bytes."""
        data = text.encode() if isinstance(text, str) else text
        return self._result(self._converts("hitac_read_text", READ_TEXT_WORK, data))

    def write_text(self, term):
        """The text of a term file, as str."""
        return self._result(self._converts("hitac_write_text", WRITE_TEXT_WORK, term)).decode("ascii")

    # A call is lent no more work space than it needs, because it clears all that it was lent.
    def _checks(self, name, size, table, other):
        call = getattr(self._library, name)
        return _succeeded(call(table, len(table), other, len(other), self._work, size))

    def _writes(self, name, size, table, other, *numbers):
        call = getattr(self._library, name)
        spaces = (self._work, size, self._out, len(self._out))
        return _succeeded(call(table, len(table), other, len(other), *numbers, *spaces))

    def _steps(self, name, size, files, budget):
        call = getattr(self._library, name)
        lengths = (number for file in files for number in (file, len(file)))
        spaces = (self._work, size, self._frames, FRAMES, self._out, len(self._out), self._state, STATE)
        answer = call(*lengths, budget, *spaces)
        if answer.number == Cause.BUDGET_SPENT:
            return Halted(self._state.raw)
        return Ran(self._result(_succeeded(answer)), answer.steps)

    def _converts(self, name, size, file):
        call = getattr(self._library, name)
        return _succeeded(call(file, len(file), self._work, size, self._out, len(self._out)))

    def _result(self, answer):
        return self._out[: answer.length]


def _need_32_bits(what, number):
    if not 0 <= number <= 0xFFFFFFFF:
        raise ValueError(f"{what} is a number of 32 bits")


def _succeeded(answer):
    if answer.number != 0:
        raise Refusal(answer)
    return answer
