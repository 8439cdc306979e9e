"""Checks a proof, runs a tactic, flattens a proof, checks the derivation and writes it back, on the files of a folder; then
checks and flattens a proof of zero bytes."""
import pathlib
import sys

import hitac


def listed(data):
    """The length of a file, and its bytes on the next line."""
    return f"bytes {len(data)}\n{data.hex(' ')}"


def run(engine, table, job, budget):
    """One run as text, refused or not."""
    try:
        ran = engine.run(table, job, budget)
    except hitac.Refusal as refusal:
        return str(refusal)
    return f"steps {ran.steps} {listed(ran.proof)}"


def main():
    folder = pathlib.Path(sys.argv[1] if len(sys.argv) > 1 else "examples/files")
    table, proof, job = ((folder / name).read_bytes() for name in ("table.kit", "proof.hip", "job.tac"))
    engine = hitac.Engine()

    print(f"version: {engine.version().major}.{engine.version().minor}")
    print(f"check: {engine.check(table, proof)}")
    print(f"run: {run(engine, table, job, 4096)}")
    print(f"run: {run(engine, table, job, 18)}")
    flat = engine.flatten(table, proof)
    print(f"flatten: {listed(flat)}")
    right = engine.check_flat(table, flat)
    print(f"check_flat: right uses {right.uses} open {right.open} rules {right.rules}")
    print(f"write_proof: {listed(engine.write_proof(table, flat))}")
    blank = b""
    print(f"check of zero bytes: {engine.check(table, blank)}")
    print(f"flatten of zero bytes: {listed(engine.flatten(table, blank))}")


if __name__ == "__main__":
    main()
