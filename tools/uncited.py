#!/usr/bin/env python3
"""Lists the definitions and lemmas of crates/*/proofs that nothing cites, and counts the proofs.

    tools/uncited.py [ROOT]

A name is cited where it stands as a word in any file of crates/*/specs, proofs, src or must-fail but in the line that gives
its type, the lines that define it, and lists of imports. Answers and invariants are cited by the prover.
"""
import re
import sys
from collections import Counter
from pathlib import Path

root = Path(sys.argv[1] if len(sys.argv) > 1 else Path(__file__).parent.parent)
GIVEN = re.compile(r"^(?:pub |abbrev |unfoldable |inline )*([A-Za-z][\w-]*) :", re.M)


def is_prover(path):
    return path.name in ("Answers.antt", "Invariants.antt") and "goal." in path.read_text() + "goal."


cited, given, files = Counter(), [], Counter()
for path in sorted(root.glob("crates/*/*/**/*")):
    if path.suffix not in (".antt", ".rt", ".edit") or "out" in path.parts:
        continue
    text = re.sub(r"(?:^| )--.*", "", path.read_text()) if path.suffix == ".antt" else path.read_text()
    if path.suffix == ".antt":
        text = re.sub(r"^(?:pub )?use .*$", "", text, flags=re.M)
    names = GIVEN.findall(text) if "proofs" in path.parts and path.suffix == ".antt" else []
    for line in text.split("\n"):
        words = re.findall(r"[A-Za-z][\w]*(?:-\w+)*", line)
        head = GIVEN.match(line)
        if path.suffix == ".antt" and words and (head or not line.startswith(" ")):
            own = head[1] if head else words[0]
            words = [word for word in words if word != own]
        cited.update(words)
    kind = path.name if path.name in ("Answers.antt", "Invariants.antt") else "lemmas"
    if "proofs" in path.parts:
        crate = path.relative_to(root).parts[1]
        files[crate, "files"] += 1
        files[crate, "lines"] += path.read_text().count("\n")
        if kind == "lemmas":
            given += [(path, name) for name in names]
for path, name in given:
    if not cited[name]:
        print(f"{path.relative_to(root)}: {name}")
for crate in sorted({crate for crate, _ in files}):
    print(f"{crate}: {files[crate, 'files']} files, {files[crate, 'lines']} lines of proofs")
print("all:", sum(n for (_, what), n in files.items() if what == "files"), "files,",
      sum(n for (_, what), n in files.items() if what == "lines"), "lines of proofs")
