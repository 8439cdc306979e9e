"""A tactic on which a run fails and a search finds a proof, which is then checked; table.kit and search.tac of a folder."""
import pathlib
import sys

import hitac


def field_length(data):
    """Bytes of the field that stands in front, with its header."""
    return 3 + int.from_bytes(data[1:3], "big")


def term_of(proof):
    """The term of a proof file, which stands behind its first goal list."""
    behind_goals = proof[field_length(proof) :]
    return behind_goals[: field_length(behind_goals)]


def main():
    folder = pathlib.Path(sys.argv[1] if len(sys.argv) > 1 else "examples/paper")
    table, job = ((folder / name).read_bytes() for name in ("table.kit", "search.tac"))
    engine = hitac.Engine()

    try:
        ran = engine.run(table, job, 4096)
        print(f"run: steps {ran.steps} bytes {len(ran.proof)}")
    except hitac.Refusal as refusal:
        print(f"run: {refusal}")
    for height, budget in ((9, 4096), (10, 55), (65, 4096), (10, 4096)):
        words = f"search at height {height}, budget {budget}"
        try:
            found = engine.search(table, job, height, budget)
        except hitac.Refusal as refusal:
            print(f"{words}: {refusal}")
            continue
        print(f"{words}: steps {found.steps} bytes {len(found.proof)}")
        print(f"proof: {engine.write_text(term_of(found.proof))}")
        print(f"check: {engine.check(table, found.proof)}")


if __name__ == "__main__":
    main()
