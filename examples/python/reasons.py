"""Why three wrong proofs do not validate, each with the place of the term that is at fault; table.kit and proof.hip of three folders."""
import pathlib
import sys

import hitac


def main():
    folder = pathlib.Path(sys.argv[1] if len(sys.argv) > 1 else "examples")
    engine = hitac.Engine()
    for name in ("refused", "miscounted", "few_goals"):
        table, proof = ((folder / name / file).read_bytes() for file in ("table.kit", "proof.hip"))
        try:
            print(f"{name}: {engine.check(table, proof)}")
        except hitac.Refusal as refusal:
            print(f"{name}: {refusal}")
            reason = refusal.cause.reason() or "docs/FORMAT.md says what the number means"
            print(f"byte {refusal.place}: {reason}")


if __name__ == "__main__":
    main()
