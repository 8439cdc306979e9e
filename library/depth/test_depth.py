"""Tests of library/stack on small listings. Run by library/test."""
import unittest

from depth.follow import Call, measured
from depth.limits import bounds_of, header_of, judged
from depth.listing import NotUnderstood, functions_of
from depth.paths import Paths, cycles_of


def listing(*functions):
    """A listing as objdump writes it, of functions as (name, lines); each instruction takes 16 bytes from 0x1000 on."""
    text, address = "", 0x1000
    for name, lines in functions:
        text += f"\n{address:016x} <{name}>:\n"
        for line in lines:
            text += f"    {address:x}:\t{line}\n"
            address += 16
    return text


class FakeLibrary:
    """A library of a listing, with the jump tables that are given by address."""

    def __init__(self, *functions, tables=()):
        self.functions = functions_of(listing(*functions))
        self.numbers = dict(tables)

    def number_at(self, address):
        return self.numbers.get(address)


def measure(*lines, tables=(), others=()):
    library = FakeLibrary(("f", lines), *others, tables=tables)
    return measured(library.functions[0x1000], library)


class Following(unittest.TestCase):
    def test_a_return_address_is_the_least(self):
        self.assertEqual(measure("xor    %eax,%eax", "ret").own, 8)

    def test_pushes_and_room(self):
        found = measure("push   %rbx", "sub    $0x28,%rsp", "mov    %rax,0x8(%rsp)", "add    $0x28,%rsp", "pop    %rbx", "ret")
        self.assertEqual(found.own, 8 + 8 + 40)

    def test_room_by_lea_and_by_a_negative_number(self):
        found = measure("lea    -0x18(%rsp),%rsp", "add    $0xffffffffffffff80,%rsp", "sub    $0xffffffffffffff68,%rsp", "ret")
        self.assertEqual(found.own, 8 + 24 + 128)

    def test_arguments_pushed_for_a_call(self):
        found = measure(
            "push   %rbx", "sub    $0x8,%rsp", "push   %rax", "call   1070 <g>", "add    $0x10,%rsp", "pop    %rbx", "ret",
            others=[("g", ["mov    0x8(%rsp),%rax", "mov    0x10(%rsp),%ecx", "ret"])],
        )
        self.assertEqual(found.calls, [Call(0x1070, 8 + 24, False)])

    def test_arguments_found_behind_the_return_address(self):
        self.assertEqual(measure("push   %rbx", "mov    0x20(%rsp),%rax", "pop    %rbx", "ret").arguments, 24)

    def test_bytes_below_the_stack_pointer(self):
        self.assertEqual(measure("mov    %rax,-0x18(%rsp)", "ret").own, 8 + 24)
        self.assertEqual(measure("movzbl -0x18(%rsp,%rsi,1),%eax", "ret").own, 8 + 128)
        self.assertEqual(measure("lea    -0x8(%rsp),%rdi", "ret").own, 8 + 128)
        self.assertEqual(measure("mov    %rsp,%rdi", "ret").own, 8 + 128)
        self.assertEqual(measure("push   %rax", "mov    %rsp,%rdi", "call   1000 <f>", "pop    %rax", "ret").own, 16)

    def test_a_frame_pointer_and_alignment(self):
        lines = ("push   %rbp", "mov    %rsp,%rbp", "and    $0xffffffffffffffe0,%rsp", "sub    $0x40,%rsp", "call   1000 <f>")
        for end in (("mov    %rbp,%rsp", "pop    %rbp"), ("leave",), ("lea    0x0(%rbp),%rsp", "pop    %rbp")):
            self.assertEqual(measure(*lines, *end, "ret").own, 8 + 8 + 24 + 64)

    def test_two_ways(self):
        found = measure("je     1040 <f+0x40>", "push   %rax", "call   1000 <f>", "pop    %rax", "ret")
        self.assertEqual(found.calls, [Call(0x1000, 16, False)])

    def test_tail_calls(self):
        others = [("g", ["ret"])]
        found = measure("push   %rbx", "pop    %rbx", "je     1040 <g>", "jmp    1040 <g>", others=others)
        self.assertEqual(found.calls, [Call(0x1040, 0, True)] * 2)
        found = measure("jmp    *0x6fa2(%rip)        # 7fd8 <memset@GLIBC_2.2.5>")
        self.assertEqual(found.calls, [Call("memset", 0, True)])

    def test_calls_outside(self):
        for line in ("call   *0x6fa2(%rip)        # 7fd8 <memset@GLIBC_2.2.5>", "call   1020 <memset@plt>"):
            found = measure(line, "ret", others=[("memset@plt", ["jmp    *0x6fa2(%rip)        # 7fd8 <memset@GLIBC_2.2.5>"])])
            self.assertEqual(found.calls, [Call("memset", 8, False)])

    def test_a_jump_through_a_table(self):
        found = measure(
            "lea    0x4026(%rip),%r11        # 6000 <table>", "movslq (%r11,%rsi,4),%rsi", "add    %r11,%rsi", "jmp    *%rsi",
            "ret", "push   %rax", "pop    %rax", "ret",
            tables={0x6000: 0x1040 - 0x6000, 0x6004: 0x1050 - 0x6000, 0x6008: 77}.items(),
        )
        self.assertEqual(found.own, 16)


class Refusing(unittest.TestCase):
    def refuses(self, why, *lines, **more):
        with self.assertRaisesRegex(NotUnderstood, why):
            measure(*lines, **more)

    def test_what_is_not_understood(self):
        self.refuses("not known: cpuid", "cpuid", "ret")
        self.refuses("call of a function that is not known", "call   *%rax", "ret")
        self.refuses("call of a function that is not known", "call   1010 <f+0x10>", "ret")
        self.refuses("place that is not known", "jmp    *%rax")
        self.refuses("table that is not found", "lea    0x4026(%rip),%r11        # 6000 <table>", "movslq (%r11,%rsi,4),%rsi",
                     "add    %r11,%rsi", "jmp    *%rsi")
        self.refuses("moved by what is not known", "sub    %rax,%rsp", "ret")
        self.refuses("moved by what is not known", "mov    %rax,%rsp", "ret")
        self.refuses("moved by what is not known", "inc    %rsp", "ret")
        self.refuses("moved by what is not known", "xchg   %rax,%rsp", "ret")
        self.refuses("moved by what is not known", "and    $0xfffffffffffffff1,%rsp", "ret")

    def test_what_a_compiler_does_not_write(self):
        self.refuses("ways meet", "je     1020 <f+0x20>", "push   %rax", "ret")
        self.refuses("a return with 8 bytes", "push   %rax", "ret")
        self.refuses("another function with 8 bytes", "push   %rax", "jmp    1020 <g>", others=[("g", ["ret"])])
        self.refuses("goes on behind its end", "push   %rax")
        self.refuses("136 bytes below", "mov    %rax,-0x88(%rsp)", "ret")
        self.refuses("without a known frame pointer", "leave", "ret")

    def test_a_frame_pointer_that_was_overwritten(self):
        self.refuses("moved by what is not known", "push   %rbp", "mov    %rsp,%rbp", "xor    %ebp,%ebp", "mov    %rbp,%rsp", "ret")


CALLING = ["push   %rax", "call   {0:x} <callee>", "pop    %rax", "ret"]


def calling(address):
    return [line.format(address) for line in CALLING]


class Searching(unittest.TestCase):
    def paths(self, *functions, bounds=lambda name: None):
        return Paths(FakeLibrary(*functions), {"memset": 64}, bounds)

    def test_the_deepest_path(self):
        paths = self.paths(("f", calling(0x1040)), ("g", ["push   %rbx", "sub    $0x20,%rsp", "add    $0x20,%rsp", "pop    %rbx", "ret"]))
        path = paths.from_entry(0x1000)
        self.assertEqual((path.size, [step.name for step in path.steps]), (16 + 48, ["f", "g"]))

    def test_a_tail_call_takes_over_the_return_address(self):
        paths = self.paths(("f", ["jmp    1010 <g>"]), ("g", ["push   %rbx", "pop    %rbx", "ret"]))
        self.assertEqual(paths.from_entry(0x1000).size, 16)

    def test_outside_names(self):
        stub = ("memset@plt", ["jmp    *0x6fa2(%rip)        # 7fd8 <memset@GLIBC_2.2.5>"])
        self.assertEqual(self.paths(("f", calling(0x1040)), stub).from_entry(0x1000).size, 16 + 64)
        paths = self.paths(("f", calling(0x1040)), ("abort@plt", stub[1]))
        self.assertIsNone(paths.from_entry(0x1000))
        self.assertIn("abort: a function outside the library", paths.refusals[0])

    def test_a_cycle_without_a_bound(self):
        paths = self.paths(("f", calling(0x1040)), ("g", calling(0x1080)), ("h", calling(0x1040)))
        self.assertIsNone(paths.from_entry(0x1000))
        self.assertEqual(paths.refusals, ["g, h: calls itself, and no bound is known"])

    def test_a_cycle_with_a_bound(self):
        wide = ["sub    $0x58,%rsp", "call   1040 <g>", "add    $0x58,%rsp", "ret"]
        paths = self.paths(("f", calling(0x1040)), ("g", calling(0x1080)), ("h", wide), bounds={"g": 10, "h": 3}.get)
        self.assertEqual(paths.from_entry(0x1000).size, 16 + 10 * 16 + 3 * 96)

    def test_a_loop_is_no_cycle(self):
        self.assertEqual(self.paths(("f", ["dec    %rax", "jne    1000 <f>", "ret"])).from_entry(0x1000).size, 8)

    def test_components_come_behind_those_that_they_call(self):
        graph = {1: [2, 4], 2: [3], 3: [2, 5], 4: [4], 5: []}
        self.assertEqual([sorted(cycle) for cycle in cycles_of(1, graph.get)], [[5], [2, 3], [4], [1]])


class Judging(unittest.TestCase):
    def test_the_header(self):
        text = "/* hitac_run */\n#define HITAC_RUN_STACK 12 /* for hitac_run */\nuint32_t hitac_version(void);\n"
        text += "struct hitac_answer hitac_run(int a);\n"
        self.assertEqual(header_of(text), ({"RUN_STACK": 12}, ["run"]))

    def test_the_bounds(self):
        bounds = bounds_of({"MOST_ENTRIES": 2048, "MOST_TERM_FIELDS": 4096})
        self.assertEqual(list(bounds.values()), [2048, 2049, 2048])

    def test_constants_and_limits(self):
        self.assertEqual(judged("run", 5000, {"RUN_STACK": 5000}), ([], []))
        self.assertEqual(len(judged("run", 5001, {"RUN_STACK": 5000})[0]), 1)
        self.assertEqual(len(judged("run", 5000, {})[0]), 1)
        for entry in ("check", "check_flat", "flatten", "read_text", "write_text", "search"):
            self.assertEqual(len(judged(entry, 5000, {f"{entry.upper()}_STACK": 5000})[0]), 1)
        self.assertEqual(judged("check", 2000, {"CHECK_STACK": 4096})[0], [])
        self.assertEqual(len(judged("check", 2000, {"CHECK_STACK": 4096})[1]), 1)


if __name__ == "__main__":
    unittest.main()
