"""What library/stack knows beside the machine code: outside functions, bounds of cycles, limits, the header's constants."""
import re

# The functions of the C library that may be called. In glibc 2.36, in the variants for AVX2, which were disassembled, each uses
# nothing but its return address; 64 bytes leave others room for seven registers.
OUTSIDE = {name: 64 for name in ("memset", "memcpy", "memmove", "memcmp")}

# The most that an entry may take.
LIMITS = {"check": 4096, "check_flat": 4096, "flatten": 4096, "read_text": 4096, "write_text": 4096, "search": 4096}


def bounds_of(constants):
    """How many frames of a function that calls itself can be on the stack at once, by crate and name.

    The writer: a tree begins at an entry of its own, a use or an open, and lies among the premises of the tree around it; so
    there are at most as many as entries. A forest with trees begins at the entry of its first tree, and no two forests on the
    stack begin at the same one, since inside it come the premises of its first tree or the trees behind that. One forest
    more may have no trees: it is the last.

    The arity: every frame but the innermost stands at a field with two inner terms, and of n fields at most (n - 1) / 2
    have two.
    """
    entries, fields = constants["MOST_ENTRIES"], constants["MOST_TERM_FIELDS"]
    return {
        ("writer", "write_tree"): entries,
        ("writer", "write_forest"): entries + 1,
        ("arities", "arity_of"): (fields - 1) // 2 + 1,
    }


def header_of(text):
    """The constants of a header, and its entries: the functions that answer with the struct, so not hitac_version."""
    constants = {name: int(number) for name, number in re.findall(r"^#define HITAC_(\w+) (\d+)", text, re.MULTILINE)}
    return constants, re.findall(r"^struct hitac_answer hitac_([a-z_]+)\(", text, re.MULTILINE)


def with_commas(number):
    return f"{number:,}"


def judged(entry, size, constants):
    """What is wrong with the bytes of an entry, and what is worth a word."""
    wrong, notes = [], []
    name = f"{entry.upper()}_STACK"
    if size > LIMITS.get(entry, size):
        wrong.append(f"{entry} takes {with_commas(size)} bytes; {with_commas(LIMITS[entry])} are the most")
    if name not in constants:
        wrong.append(f"the header has no HITAC_{name}; {entry} takes {with_commas(size)} bytes")
    elif constants[name] < size:
        wrong.append(f"HITAC_{name} is {with_commas(constants[name])}; {entry} takes {with_commas(size)} bytes")
    elif constants[name] > 2 * size:
        notes.append(f"HITAC_{name} is {with_commas(constants[name])}, more than twice what {entry} takes")
    return wrong, notes
