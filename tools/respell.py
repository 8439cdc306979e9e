#!/usr/bin/env python3
"""Spells the repository's own definitions and lemmas as today's Rattle does: words in snake case.

usage: tools/respell.py [ROOT] --write      rewrites crates/*/{src,specs,proofs,must-fail} in place; run once, after port.py; without --write it only looks

A name that specs/ or a file of lemmas declares in lower camel case (putWord) or with dashes (paste-below) gets underscores (put_word, paste_below).
A lemma keeps a dash that joins two definitions (length-forest). Names that begin with a capital stay: types, facts, and the paper's rules (B-Atomic).
A name that a file imports from a library stays in every file. Names of src/ stay: none has a capital inside or a dash.
It stops, and writes nothing, where two names would fall together in one file.
"""
import collections
import glob
import os
import re
import sys

ROOT = next((a for a in sys.argv[1:] if not a.startswith("-")), ".")
TOKEN = re.compile(r"[^\s(){}.;,@\"«»\[\]|]+")
DECLARED = re.compile(r"^( *)((?:(?:pub|abbrev|unfoldable) )*)([^\s:(){}|]+)(?= *(?:[:({]))")
LIBRARY = re.compile(r"^\s*(?:ghost |pub )*use ((?!Rattle\.(?!std\b))[^\s{]+)\.\{([^}]*)\}", re.M)
WORDS = set("length take drop append set get_or map replicate paste sum cond reverse concat slice_index slice_get".split())

# fields whose plain new spelling would meet the definition that they speak of
OTHER = {"unopened-line": "unopened_printed", "no-bytes-line": "no_bytes_printed", "height-outside": "outside_heights"}

# lemmas that would meet the definition that they are about, by the files where they are named
LEMMAS = {
    "derivation/proofs/**/*": ["rule_found", "first_entry"],
    "index/proofs/**/*": ["rule_found"],
    "entries/proofs/Worked": ["too_long"],
    "evaluation/proofs/MachineTraced": ["split_at"],
    "saver/proofs/*Laws": ["put_word"],
    "search/proofs/TraceEvaluates": ["on_one"],
    "text_reader/proofs/**/*": ["at-end"],
}

# a definition beside a function of src/ of that name, and fields of two records: they may share a name
SHARED = {"run_halting", "read_proof_fields", "pair_byte", "tag_in", "left_goals", "right_goals", "low_of", "read_table"}


def texts(pattern):
    return sorted(f for f in glob.glob(os.path.join(ROOT, "crates", pattern), recursive=True) if "/out/" not in f)


def snake(name):
    return re.sub(r"(?<=[a-z0-9₀-₉])[A-Z]", lambda m: "_" + m[0].lower(), name)


def joined(name, names):
    """The new spelling of a lemma: a dash stays between two names."""
    parts = [snake(p) for p in name.split("-")]
    out = parts[0]
    for before, after in zip(parts, parts[1:]):
        out += ("-" if before in names and after in names else "_") + after
    return out


def main():
    for pattern, names in LEMMAS.items():
        for f in texts(pattern + ".antt"):
            old = open(f).read()
            new = TOKEN.sub(lambda m: m[0].replace("-", "_") + "_lem" if m[0] in names else m[0], old)
            if new != old and "--write" in sys.argv:
                open(f, "w").write(new)
    stated, proved, heads = set(), set(), set(WORDS)
    for folder, into in (("specs", stated), ("proofs", proved)):
        for f in texts(f"*/{folder}/**/*.antt"):
            if os.path.basename(f) in ("Proof.antt", "Lib.antt"):
                continue
            for line in open(f):
                m = DECLARED.match(line)
                if m and ":" in line and not line.lstrip().startswith("--"):
                    into.add(m[3])
                    if folder == "specs" and not m[1]:
                        heads.add(snake(m[3]))
    of_library = set()
    files = texts("*/src/**/*.rt") + texts("*/specs/**/*.antt") + texts("*/proofs/**/*.antt") + texts("*/must-fail/*.edit")
    text = {f: open(f).read() for f in files}
    for f in files:
        for _, names in LIBRARY.findall(text[f]):
            of_library |= {n.strip() for n in names.split(",")}
    # a lemma that would have its function's name gets _lem
    stem = {}
    for name in stated | proved:
        if name[:1].islower() and name not in of_library:
            stem.setdefault(snake(name).replace("-", "_"), set()).add(name)
    turned = {}
    for name in stated | proved:
        if not name[:1].islower() or name in of_library or not re.search(r"-|[a-z0-9₀-₉][A-Z]", name):
            continue
        new = OTHER.get(name) or (snake(name).replace("-", "_") if name in stated else joined(name, heads))
        if "-" in name and name not in stated and new not in OTHER.values() and any("-" not in it for it in stem[new.replace("-", "_")]):
            new += "_lem"
        if new != name:
            turned[name] = new
    bad = 0
    for name in sorted((stated | proved) & of_library):
        if "-" in name or re.search(r"[a-z][A-Z]", name):
            print(f"stays, as a library has it too: {name}")
    back = collections.defaultdict(set)
    for old, new in turned.items():
        back[new].add(old)
    for f in files:
        # neither a path nor a function of src/ is what a clause names
        plain = re.sub(r"(?m)^\s*use Rattle\.[^\s{]+|\bfn \w+|\b\w+(?=\()|\buse \w+::[\w:]+|\bmod \w+", " ", text[f])
        plain = re.sub(r"--.*|//.*", " ", plain)
        tokens = set(TOKEN.findall(plain))
        for old in tokens & set(turned):
            new = turned[old]
            others = {o for o in back[new] if o != old} & tokens
            if new not in SHARED and (new in tokens or others):
                print(f"falls together in {f}: {old} -> {new} {sorted(others)}")
                bad += 1
    if bad or "--write" not in sys.argv:
        return 1
    count = 0
    for f in files:
        new = TOKEN.sub(lambda m: turned.get(m[0], m[0]), text[f])
        if new != text[f]:
            count += 1
            open(f, "w").write(new)
    print(f"{len(turned)} names turned in {count} files")
    return 0


sys.exit(main())
