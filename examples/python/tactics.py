"""Reads tactics as text, writes them back, puts each into a job on its goals and runs it; table.kit and tactics.txt of a folder."""
import pathlib
import sys

import hitac


def goal_list(goals):
    """The field of a goal list."""
    contents = b"".join(goal.to_bytes(2, "big") for goal in goals)
    return b"\x03" + len(contents).to_bytes(2, "big") + contents


def field_at(data, place):
    """A field with its header."""
    return data[place : place + 3 + int.from_bytes(data[place + 1 : place + 3], "big")]


def show_proof(engine, ran):
    """Of the proof file that a run gave, the term as text and the goals that remain."""
    term = field_at(ran.proof, len(field_at(ran.proof, 0)))
    remaining = field_at(ran.proof, len(field_at(ran.proof, 0)) + len(term))
    print(f"run: steps {ran.steps} bytes {len(ran.proof)}")
    print(f"proof: {engine.write_text(term)}")
    print("remaining:", *(int.from_bytes(remaining[i : i + 2], "big") for i in range(3, len(remaining), 2)))


def show(engine, table, goals, tactic):
    """A tactic in both forms, and what comes of it on its goals."""
    print(f"tactic: {tactic}")
    try:
        term = engine.read_text(tactic)
    except hitac.Refusal as refusal:
        print(f"read_text: {refusal}")
        return
    print(f"read_text: bytes {len(term)}\n{term.hex(' ')}")
    print(f"write_text: {engine.write_text(term)}")
    try:
        show_proof(engine, engine.run(table, goal_list(goals) + term, 4096))
    except hitac.Refusal as refusal:
        print(f"run: {refusal}")


def main():
    folder = pathlib.Path(sys.argv[1] if len(sys.argv) > 1 else "examples/paper")
    table = (folder / "table.kit").read_bytes()
    engine = hitac.Engine()
    # a line end is no blank of the notation
    for line in (folder / "tactics.txt").read_text().split("\n")[:-1]:
        goals, _, tactic = line.partition(": ")
        show(engine, table, map(int, goals.split()), tactic)


if __name__ == "__main__":
    main()
