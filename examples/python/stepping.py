"""Steps through the run of a job, one term at a time, as a debugger would: after each step it shows what is finished and what
waits, from its saved state alone. table.kit and job.tac of a folder."""
import pathlib
import sys

import hitac

# What the term of an entry does; docs/FORMAT.md, "The saved state of a halted run".
TO_BEGIN, LABEL, SEQUENCE_LEFT, SEQUENCE_RIGHT, TENSOR_LEFT, TENSOR_RIGHT, ALTERNATION_LEFT = range(7)


def first_field(data):
    """The field that stands in front, with its header."""
    return data[: 3 + int.from_bytes(data[1:3], "big")]


class Halt:
    """A saved state, taken apart: steps, hiproofs that are finished, and entries of stage, file, place and goals."""

    def __init__(self, state):
        self._state, self._at = state, 0
        self.steps = self._value()
        fields = self._take(self._value())
        self.finished = []
        while fields:
            self.finished.append(first_field(fields))
            fields = fields[len(self.finished[-1]) :]
        self.entries = [self._entry() for _ in range(self._value())]

    def _take(self, count):
        self._at += count
        return self._state[self._at - count : self._at]

    def _value(self):
        return int.from_bytes(self._take(2), "big")

    def _entry(self):
        stage, file = self._take(2)
        place = self._value()
        return stage, file, place, [self._value() for _ in range(self._value())]

    def list_of(self, number):
        """The list on which the term of an entry began, put together from the innermost entry on. An alternation keeps only
        those goals that no entry inside it holds; the right term of a sequence runs on another list."""
        inside = []
        for stage, _, _, goals in reversed(self.entries[number:]):
            if stage == SEQUENCE_RIGHT:
                inside = []
            elif stage in (TO_BEGIN, TENSOR_LEFT):
                inside = inside + goals
            elif stage == ALTERNATION_LEFT:
                inside = goals + inside
        return inside


def listed(goals):
    return " ".join(map(str, goals)) or "no goals"


def told(halt, number):
    """One entry as a line."""
    stage, file, place, goals = halt.entries[number]
    at = f"byte {place} of the {'table' if file == 0 else 'job'}"
    return (
        f"to begin: {at} on {listed(goals)}",
        f"label, inner term {at} runs",
        f"sequence, left term runs, then {at} on what it gives",
        f"sequence, right term {at} runs",
        f"tensor, left term runs, then {at} on {listed(goals)}",
        f"tensor, right term {at} runs, left gave {listed(goals)}",
        f"alternation, left term runs, else {at} on {listed(halt.list_of(number))}",
    )[stage]


def show(engine, halt):
    print(f"steps {halt.steps}")
    for hiproof in halt.finished:
        print(f"  finished: {engine.write_text(hiproof)}")
    for number in range(len(halt.entries)):
        print(f"  {told(halt, number)}")


def main():
    folder = pathlib.Path(sys.argv[1] if len(sys.argv) > 1 else "examples/files")
    table, job = ((folder / name).read_bytes() for name in ("table.kit", "job.tac"))
    engine = hitac.Engine()
    try:
        stepped = engine.run_halting(table, job, 0)
        while isinstance(stepped, hitac.Halted):
            show(engine, Halt(stepped.state))
            stepped = engine.resume(table, job, stepped.state, 1)
    except hitac.Refusal as refusal:
        print(f"run: {refusal}")
        return
    print(f"run: steps {stepped.steps} bytes {len(stepped.proof)}")
    print(f"proof: {engine.write_text(first_field(stepped.proof[len(first_field(stepped.proof)) :]))}")


if __name__ == "__main__":
    main()
