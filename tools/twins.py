#!/usr/bin/env python3
"""Lists pairs of functions in crates/*/src whose bodies are alike once their names and numbers are taken out.

    tools/twins.py [ROOT [RATIO]]

RATIO is how much of the bodies has to be the same, 0.9 where none is named; bodies of fewer than 25 words are left out.
"""
import difflib
import re
import sys
from itertools import combinations
from pathlib import Path

KEPT = {"if", "while", "return", "let", "mut", "match", "else", "for", "fn", "true", "false", "as"}


def functions(root):
    """Each function with its file and the words of its body."""
    for path in sorted(root.glob("crates/*/src/*.rt")):
        text = re.sub(r"^ *//.*$", "", path.read_text(), flags=re.M)
        for match in re.finditer(r'^( *)(?:pub(?:\(crate\))? )?(?:extern "C" )?fn (\w+)', text, re.M):
            code = text[match.start():text.find("\n" + match[1] + "}", match.end())]
            start = code.find("\n" + match[1] + "{")
            body = code[start if start > 0 else code.find("{"):]
            words = [word if word in KEPT or not re.match(r"\w", word) else "0" if word[0].isdigit() else "x"
                     for word in re.findall(r"\w+|[^\s\w]", body)]
            if len(words) >= 25:
                yield f"{path.parts[-3]}: {path.name} {match[2]}", words


def main():
    root = Path(sys.argv[1] if len(sys.argv) > 1 else Path(__file__).parent.parent)
    least = float(sys.argv[2]) if len(sys.argv) > 2 else 0.9
    pairs = 0
    for (one, a), (two, b) in combinations(functions(root), 2):
        if 0.6 < len(a) / len(b) < 1.7:
            same = difflib.SequenceMatcher(None, a, b, autojunk=False)
            if same.quick_ratio() >= least and same.ratio() >= least:
                pairs += 1
                print(f"{same.ratio():.2f} {one} ~ {two}")
    print("pairs", pairs)


main()
