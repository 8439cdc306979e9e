"""How deep a function takes the stack: every instruction that it can reach is followed, with what is known of the registers.

A depth is counted in bytes from the stack pointer at the function's entry, which points to the return address. What is known
of a register is a Value: a place in the stack, or an address of a jump table on its way into a jump. Where two ways meet, the
depth must be the same on both.
"""
import re
from typing import NamedTuple

from depth.listing import NotUnderstood


class Value(NamedTuple):
    # "stack": the address so many bytes below the entry's stack pointer; "table": the address itself;
    # "entry": a number loaded from the table at the address; "place": the place in the code that such a number names.
    kind: str
    number: int


class Call(NamedTuple):
    # The address of a function of the library, or the name of one outside.
    callee: object
    # Bytes from the caller's return address on, that included, when the callee is called.
    depth: int
    # Whether it is a jump, by which the callee takes over the return address.
    tail: bool


class Measured(NamedTuple):
    # Bytes from the return address on, that included, that the function itself uses.
    own: int
    # Bytes of arguments that it finds behind the return address, in its caller's frame.
    arguments: int
    calls: list


# The ABI lets a function use so many bytes below its stack pointer.
RED_ZONE = 128
WORD = 8


def _registers():
    names = {f"r{n}{part}": f"r{n}" for n in range(8, 16) for part in ("", "d", "w", "b")}
    for n in "abcd":
        names.update({form: f"r{n}x" for form in (f"r{n}x", f"e{n}x", f"{n}x", f"{n}l", f"{n}h")})
    for n in ("si", "di", "bp", "sp"):
        names.update({form: f"r{n}" for form in (f"r{n}", f"e{n}", n, f"{n}l")})
    return names


REGISTERS = _registers()
WHOLE = set(REGISTERS.values())
LOST_BY_CALLS = ("rax", "rcx", "rdx", "rsi", "rdi", "r8", "r9", "r10", "r11")

# Instructions by what they write: nothing; their last operand alone; rax and rdx; rax, rcx, rsi and rdi; two operands and rax.
NOTHING = re.compile(
    r"nop[wl]?|endbr64|(cmp|test)[bwlq]?|bt[wlq]?|v?u?comis[sd]|v?ptest|prefetch\w*|pause|[lms]fence|vzeroupper|cl[cd]|stc|cmc"
)
LAST_OPERAND = re.compile(
    r"mov(abs|be)?[bwlq]?|mov[sz](b[wlq]|w[lq]|lq)|lea[wlq]?|(add|sub|and|or|xor|adc|sbb|not|neg|inc|dec)[bwlq]?"
    r"|(sh[lr]|sa[lr]|ro[lr]|rc[lr]|sh[lr]d)[bwlq]?|set\w+|cmov\w+|bswap|bs[fr]|[lt]zcnt|popcnt|andn|bextr|bls(r|i|msk)"
    r"|(sa|sh)[lr]x|rorx|bt[scr][wlq]?"
    r"|v?mov(aps|apd|ups|upd|dqa|dqu|d|q|ss|sd|hps|lps|hlps|lhps|hpd|lpd|mskps|mskpd|ntps|ntdq|ddup|shdup|sldup)"
    r"|v?(andn?|x?or|unpck[lh]|shuf|add|sub|mul|div|min|max|sqrt|blend)(ps|pd|ss|sd)|v?cvt\w+"
    r"|v?p(add|sub|andn?|x?or|cmpeq|cmpgt|unpck[lh]|shuf|sll|srl|sra|ack[su]s|min|max|mul|madd|avg|sad|insr|extr|movmsk|mov[sz]x"
    r"|blend|alignr|abs|hadd|sign|broadcast|perm)\w*"
)
PRODUCT = re.compile(r"(i?mul|i?div)[bwlq]?|cqto|cltd|cltq|cwt[ld]")
STRINGS = re.compile(r"(stos|lods|scas|cmps|movs)[bwlq]?")
EXCHANGE = re.compile(r"xchg[bwlq]?|xadd[bwlq]?|cmpxchg[bwlq]?")
ENDS = re.compile(r"ud2|hlt|int3")
JUMP = re.compile(r"j(?!mp)[a-z]+")

MEMORY = re.compile(r"^\*?(?:%[a-z]s:)?(-?0x[0-9a-f]+|\d+)?\((?:%(\w+))?(?:,%(\w+)(?:,\d)?)?\)$")


class Memory(NamedTuple):
    displacement: int
    base: str
    index: str


def memory_of(operand):
    """The parts of an operand in memory, None for another one."""
    found = MEMORY.match(operand)
    if not found:
        return None
    names = [REGISTERS.get(name or "", name or "") for name in (found[2], found[3])]
    return Memory(int(found[1] or "0", 0), *names)


def register_of(operand):
    """The 64-bit register that an operand is or is part of, "" for another operand."""
    return REGISTERS.get(operand[1:], "") if operand.startswith("%") else ""


def whole(operand):
    """The register that an operand is, "" if it is another operand or only part of a register."""
    return operand[1:] if operand.startswith("%") and operand[1:] in WHOLE else ""


def immediate_of(operand):
    """A constant operand as a signed number of 64 bits, None for another one."""
    if not operand.startswith("$"):
        return None
    number = int(operand[1:], 0) % 2**64
    return number - 2**64 if number >= 2**63 else number


def stem(mnemonic):
    """The name without the suffix that some versions of objdump give to instructions on the stack."""
    return re.sub(r"^(push|pop|call|ret|leave)q$", r"\1", mnemonic)


def address_of(operand, known):
    """The Value of the address that an operand in memory names, None if it is not known."""
    memory = memory_of(operand)
    if memory and not memory.index:
        base = known.get(memory.base)
        if base and base.kind == "stack":
            return Value("stack", base.number - memory.displacement)
    return None


def loaded(source, known):
    """The Value of a number loaded from memory: one of a jump table, or not known."""
    memory = memory_of(source)
    base = known.get(memory.base) if memory else None
    if base and base.kind == "table" and memory.index and memory.displacement == 0:
        return Value("entry", base.number)
    return None


def sum_of(old, source, sign, known):
    """The Value of a register after something was added to it (sign 1) or taken from it (sign -1)."""
    number = immediate_of(source)
    if number is not None and old and old.kind == "stack":
        return Value("stack", old.number - sign * number)
    other = known.get(whole(source))
    if old and other and sign == 1 and {old.kind, other.kind} == {"table", "entry"} and old.number == other.number:
        return Value("place", old.number)
    return None


def aligned(old, source):
    """The stack pointer after it was rounded down to a multiple: the deepest that it can be."""
    number = immediate_of(source)
    if old and number is not None and number < 0 and -number & (-number - 1) == 0 and -number >= WORD:
        return Value("stack", old.number - number - WORD)
    return None


def written(instruction, known):
    """What the last operand, a whole register, is known to hold after an instruction that writes it alone."""
    name, operands = instruction.mnemonic, instruction.operands
    target, source = whole(operands[-1]), operands[0]
    if name in ("mov", "movq"):
        return known.get(whole(source))
    if name == "lea":
        if memory_of(source) and memory_of(source).base == "rip":
            return Value("table", instruction.named)
        return address_of(source, known)
    if name == "movslq":
        return loaded(source, known)
    if name in ("add", "sub"):
        return sum_of(known.get(target), source, 1 if name == "add" else -1, known)
    if name == "and" and target == "rsp":
        return aligned(known.get(target), source)
    return None


def forget(known, *names):
    return {name: value for name, value in known.items() if name not in names}


def moved(known, by):
    """The registers after the stack pointer went down by so many bytes."""
    return {**known, "rsp": Value("stack", known["rsp"].number + by)}


def on_the_stack(name, operands, known):
    """The registers after push, pop, leave or call."""
    if name == "push":
        return moved(known, WORD)
    if name == "pop":
        return moved(forget(known, register_of(operands[0])), -WORD)
    if name == "call":
        return forget(known, *LOST_BY_CALLS)
    frame = known.get("rbp")
    if not frame or frame.kind != "stack":
        raise NotUnderstood("leave without a known frame pointer")
    return moved({**forget(known, "rbp"), "rsp": frame}, -WORD)


def after(instruction, known):
    """What is known of the registers after an instruction."""
    name, operands = stem(instruction.mnemonic), instruction.operands
    if NOTHING.fullmatch(name) or JUMP.fullmatch(name) or name == "jmp":
        return known
    if name in ("push", "pop", "leave", "call"):
        left = on_the_stack(name, operands, known)
    elif PRODUCT.fullmatch(name) and len(operands) < 2:
        left = forget(known, "rax", "rdx")
    elif STRINGS.fullmatch(name) and any(":(" in operand for operand in operands):
        left = forget(known, "rax", "rcx", "rsi", "rdi")
    elif EXCHANGE.fullmatch(name):
        left = forget(known, "rax", *map(register_of, operands))
    elif LAST_OPERAND.fullmatch(name) or PRODUCT.fullmatch(name):
        left = forget(known, register_of(operands[-1]))
        value = written(instruction, known) if whole(operands[-1]) else None
        if value:
            left[whole(operands[-1])] = value
    else:
        raise NotUnderstood(f"an instruction that is not known: {name}")
    if left.get("rsp", Value("", 0)).kind != "stack":
        raise NotUnderstood("the stack pointer is moved by what is not known")
    return left


def jump_targets(place, function, library):
    """Where a jump through a table goes: its numbers, as long as they name instructions of the function."""
    targets = []
    number = library.number_at(place.number)
    while number is not None and place.number + number in function.code:
        targets.append(place.number + number)
        number = library.number_at(place.number + 4 * len(targets))
    if not targets:
        raise NotUnderstood("a jump through a table that is not found")
    return targets


def successors(instruction, behind, known, function, library):
    """The places that may come next in the function; `behind` is the next one in order."""
    name = stem(instruction.mnemonic)
    if name == "ret" or ENDS.fullmatch(name):
        return []
    going_on = [] if name == "jmp" else [behind]
    if name == "jmp" and instruction.operands and not is_outside(instruction):
        place = known.get(whole(instruction.operands[0].lstrip("*")))
        if not place or place.kind != "place":
            raise NotUnderstood("a jump to a place that is not known")
        return jump_targets(place, function, library)
    if (name == "jmp" or JUMP.fullmatch(name)) and instruction.named in function.code:
        return going_on + [instruction.named]
    return going_on


def is_outside(instruction):
    """Whether a call or jump goes through a slot that is filled with the address of an outside function."""
    return bool(instruction.operands) and instruction.operands[0].endswith("(%rip)") and bool(instruction.symbol)


def met(one, other):
    """What is known where two ways meet."""
    if one["rsp"] != other["rsp"]:
        raise NotUnderstood(f"ways meet with stacks of {one['rsp'].number} and {other['rsp'].number} bytes")
    return {name: value for name, value in one.items() if other.get(name) == value}


def states_of(function, library):
    """What is known of the registers in front of every instruction that can be reached."""
    order = list(function.code)
    behind = dict(zip(order, order[1:]))
    states = {order[0]: {"rsp": Value("stack", 0)}}
    waiting = [order[0]]
    while waiting:
        address = waiting.pop()
        instruction, known = function.code[address], states[address]
        try:
            if stem(instruction.mnemonic) == "ret" and (instruction.operands or known["rsp"].number != 0):
                raise NotUnderstood(f"a return with {known['rsp'].number} bytes on the stack")
            left = None
            for target in successors(instruction, behind.get(address), known, function, library):
                if target is None:
                    raise NotUnderstood("the code goes on behind its end")
                left = left or after(instruction, known)
                new = met(states[target], left) if target in states else left
                if states.get(target) != new:
                    states[target] = new
                    waiting.append(target)
        except NotUnderstood as problem:
            raise NotUnderstood(f"{function.name}, at {address:x}: {problem}") from None
    return states


def callee_of(instruction, library):
    """The function that a call or jump goes to: its address, or the name of one outside."""
    if is_outside(instruction):
        return instruction.symbol.split("@")[0]
    if instruction.operands or instruction.named not in library.functions:
        raise NotUnderstood("a call of a function that is not known")
    name = library.functions[instruction.named].name
    return name[: -len("@plt")] if name.endswith("@plt") else instruction.named


def call_at(instruction, depth, function, library):
    """The call that an instruction makes, None if it makes none."""
    name = stem(instruction.mnemonic)
    if name == "call":
        return Call(callee_of(instruction, library), WORD + depth, False)
    leaves = is_outside(instruction) or instruction.named is not None and instruction.named not in function.code
    if not leaves or not (name == "jmp" or JUMP.fullmatch(name)):
        return None
    if depth != 0:
        raise NotUnderstood(f"a jump to another function with {depth} bytes on the stack")
    return Call(callee_of(instruction, library), 0, True)


def below(instruction, known):
    """How far below the entry's stack pointer an instruction names an address, and whether others may follow from it."""
    deepest, reaching = 0, False
    if instruction.mnemonic.startswith("nop") or instruction.operands[-1:] == ("%rsp",):
        return deepest, reaching
    for operand in instruction.operands:
        memory = memory_of(operand)
        base = known.get(memory.base) if memory else None
        if base and base.kind == "stack":
            deepest = max(deepest, base.number - memory.displacement)
            reaching = reaching or bool(memory.index) or instruction.mnemonic == "lea"
    if instruction.mnemonic == "mov" and instruction.operands[0] == "%rsp":
        reaching = True
    return deepest, reaching


def argument_bytes(instruction, known):
    """Bytes behind the return address up to the last word that an instruction names."""
    most = 0
    for operand in instruction.operands:
        place = address_of(operand, known)
        if place and -place.number >= WORD:
            most = max(most, -place.number // WORD * WORD)
    return most


def used_by(instruction, known, makes_calls):
    """Bytes from the return address on that are in use in front of and during an instruction."""
    depth = known["rsp"].number
    deepest, reaching = below(instruction, known)
    if deepest > depth + RED_ZONE:
        raise NotUnderstood(f"{deepest - depth} bytes below the stack pointer")
    # A place below the stack pointer is in the red zone; one that is found by an index or kept in a register may be the least
    # named of it. In a function that makes calls, which overwrite the red zone, only what is named there counts.
    if reaching and (deepest > depth or not makes_calls):
        deepest = depth + RED_ZONE
    return WORD + max(depth, deepest)


def measured(function, library):
    """The stack that a function uses and the calls that it makes."""
    states = states_of(function, library)
    calls, own, arguments = [], WORD, 0
    code = [(function.code[address], known) for address, known in states.items()]
    makes_calls = any(stem(instruction.mnemonic) == "call" for instruction, _ in code)
    for instruction, known in code:
        try:
            call = call_at(instruction, known["rsp"].number, function, library)
            own = max(own, used_by(instruction, known, makes_calls))
        except NotUnderstood as problem:
            raise NotUnderstood(f"{function.name}, at {instruction.address:x}: {problem}") from None
        arguments = max(arguments, argument_bytes(instruction, known))
        calls += [call] if call else []
    return Measured(own, arguments, calls)
