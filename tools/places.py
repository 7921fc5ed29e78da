#!/usr/bin/env python3
"""Counts in crates/*/src what docs/DESIGN-PASS.md looks for: tools/places.py [-l]. With -l each place is listed.

A pattern finds the lines that a reader then judges; the page says of each what it is.
"""
import glob
import os
import re
import sys

TOP = os.path.dirname(os.path.dirname(os.path.abspath(__file__)))

# point, what it is, pattern of a line
POINTS = [
    ("1", "enums", r"^\s*(pub )?enum \w+"),
    ("1", "numbers that stand for nothing or for a refusal, by what is said of them", r"(?i)//.*(\b0 for (none|no )|\b0 where|; 0 (for|where)|which is none|0 for a (text|byte|word)|the number of (the|a) refusal)"),
    ("1", "numbers of refusals in code", r"(?<![\w.])(Refused|refused|Fault|print_refusal|put_refusal)\([^)]*\b\d+\s*,"),
    ("2", "functions whose name is another's but for a type or a size", r"^\s*(pub )?fn (u8|u16|u32|u64|i32)_at|^\s*(pub )?fn in_(document|alert|info|resource|area|pair)\b|^\s*(pub )?fn \w+_(cap|warn)\b|^\s*(pub )?fn (cap|warn)_\w+|^\s*(pub )?fn \w+_(at|number)\((k: usize|\w+: [A-Z]\w+)\)"),
    ("3", "while and loop", r"^\s*('\w+: )?(while|loop)\b"),
    ("4", "equality, conversion and printing by hand", r"fn (is_same|same_place|equals|starts_with|fault_number|refusal_number|receipt_number|kind_number|\w+_number|\w+_reply|print\w*)\("),
    ("5", "requires", r"^\s*requires\b"),
    ("5", "a buffer and where to write in it", r"(dst: &mut \[u8\], at: usize|buffer: &mut \[u8\], start: usize|^\s+start: usize,)"),
    ("6", "tables", r"^\s*(pub )?(const|static) \w+: &?\[+"),
    ("7", "parameters of type bool", r"fn .*\b\w+: bool[,)]"),
]


def main(listing):
    lines = []
    for path in sorted(glob.glob(f"{TOP}/crates/*/src/**/*.rt", recursive=True)):
        with open(path, encoding="utf-8") as file:
            lines += [(os.path.relpath(path, TOP), n, line.rstrip("\n")) for n, line in enumerate(file, 1)]
    for point, what, pattern in POINTS:
        found = [it for it in lines if re.search(pattern, it[2])]
        print(f"{point}. {what}: {len(found)}")
        if listing:
            for path, n, line in found:
                print(f"    {path}:{n}: {line.strip()}")
    answers = glob.glob(f"{TOP}/crates/*/proofs/**/Answers.antt", recursive=True)
    lemmas = glob.glob(f"{TOP}/crates/*/proofs/*.antt")
    count = lambda paths: sum(sum(1 for _ in open(p, encoding="utf-8")) for p in paths)
    print(f"8. files of answers: {len(answers)}, {count(answers)} lines; of lemmas: {len(lemmas)}, {count(lemmas)} lines")


if __name__ == "__main__":
    main("-l" in sys.argv[1:])
