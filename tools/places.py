#!/usr/bin/env python3
"""Counts places of src/ that read like an older language, by pattern: python3 tools/places.py [FOLDER] [--list]

Each pattern is a regular expression over the text of a .rt file without its comments. With --list each place is printed."""
import re
import sys
from collections import Counter
from pathlib import Path

# point, name, pattern
PATTERNS = [
    (1, "a value that is there, taken by hand: unreachable!", r"unreachable!\(\)"),
    (1, "Option and Result turned into one another, or into a bool, by hand", r"\b(?:Ok|Some|Err)\(\w+\) => (?:Some|Ok|Err|None|true|false)\b(?:\(\w+\))?,"),
    (1, "an error handed on by hand", r"if let Err\(\w+\) = [^{]*\{\s*return Err\("),
    (1, "None or an error handed on by let-else", r"let \w+\([^;]*?\) = [^;{]*? else \{\s*return (?:None|Err\(Refusal::\w+\));\s*\};"),
    (1, "a flag with a value beside it", r"-> \(\w+, bool\)|struct \w+\((?:pub )?\w+, bool|over: bool|-> bool\s+(?:requires \{[^\n]*\}\s+)?ensures \{ MatchBool result \(\(length"),
    (1, "a number for a kind: 0 for none, a code for a road or a symbol", r"fn (?:next_word|shown_word|shown_len|road_of|known_road|from_code|to_code|refused)\b[^{]*-> (?:usize|u8|i32|Road|Option)|road: u8"),
    (3, "a loop over numbers that index something", r"for (\w+) in [\w.]+\.\.[^{]*\{(?=[^}]*\[[^\]]*\b\1\b)"),
    (3, "a loop over numbers, for other ends", r"for (\w+) in [\w.]+\.\.=?[^{]*\{(?![^}]*\[[^\]]*\b\1\b)"),
    (3, "a count or a place kept by hand: += 1, -= 1", r"\b[\w.]+ [+-]= 1\b"),
    (3, "while and loop", r"\b(?:while|loop)\b(?! let) [^;]*?\{|while let"),
    (3, "memory written by index in a loop", r"\w+\[[^\]]+\] = "),
    (4, "equality, order, conversion, printing in functions of their own", r"fn (?:same_\w+|no_later|lesser|letter\w*|to_char|from_char|to_code|from_code|tell_(?:number|road|dart|refusal)|push_refusal|is_corner)\b|impl PartialEq"),
    (5, "width and height side by side", r"width: u16,\s*height: u16|width\(\), \w+\.height\(\)"),
    (5, "memory and a place in it side by side", r"out: &mut \[u8\],\s*at: usize"),
    (5, "pixel and road side by side, outside their types", r"pixel: u32,\s*road: Road\b(?=[^}]*\))"),
    (6, "an array for a list that may be shorter", r"\[[\w:]+(?:\([\w:]*\))?; 6[04]\]|\[0u8; 60\]|\[false; 60\]"),
    (6, "a length or a depth beside an array", r"\b(?:len|depth): usize\b"),
    (7, "a kind that says which step to run", r"Tally::\w+"),
]


def without_comments(text):
    return re.sub(r"(?m)^\s*//.*$", "", text)


def facts(text):
    """The requires clauses, each by its text without its name."""
    return re.findall(r"requires(?: \w+)? \{ (.*) \}\s*$", text, re.M)


def main():
    folder = Path(next((a for a in sys.argv[1:] if not a.startswith("--")), "."))
    listed = "--list" in sys.argv
    files = sorted(folder.glob("crates/*/src/**/*.rt"))
    texts = [(f, without_comments(f.read_text())) for f in files]
    for point, name, pattern in PATTERNS:
        places = [(f, t.count("\n", 0, m.start()) + 1, m.group(0)) for f, t in texts for m in re.finditer(pattern, t)]
        print(f"{point}\t{len(places)}\t{name}")
        if listed:
            for f, line, what in places:
                print(f"\t\t{f.relative_to(folder)}:{line}: {' '.join(what.split())[:100]}")
    clauses = Counter(c for _, t in texts for c in facts(t))
    often = {c: n for c, n in clauses.items() if n >= 3}
    print(f"5\t{sum(often.values())}\tclauses of requires that stand three times or more ({len(often)} facts)")
    if listed:
        for c, n in sorted(often.items(), key=lambda x: -x[1]):
            print(f"\t\t{n} times: {c}")


main()
