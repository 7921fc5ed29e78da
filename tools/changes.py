#!/usr/bin/env python3
"""Lists by their text the signatures, clauses, definitions and edits that differ between two commits, old and new, as Markdown.

usage: changes.py OLD [NEW]      NEW: a commit, or the work tree where it isn't given

A function is known by its crate, file, type (or trait and type) and name. A definition is an `abbrev`, `unfoldable`, `data` or `record` of specs/, known by its
crate and name. What stands in another file, or under another name, counts as gone.
"""
import os
import re
import subprocess
import sys

TOP = os.path.dirname(os.path.dirname(os.path.abspath(__file__)))
FN = re.compile(r"(?:pub(?:\([a-z]+\))? )?(?:const )?(?:unsafe )?(?:extern \"C\" )?fn (\w+)")
CLAUSE = re.compile(r"(requires|ensures|decreases)\b")
DEFINITION = re.compile(r"(?:(?:abbrev|unfoldable) (?:pub )?(\S+) :|pub (?:data|record) (\S+))")


def files(commit):
    """The text of each file of crates/ by its path."""
    git = ["git", "-C", TOP]
    listed = ["ls-files", "-co", "--exclude-standard", "crates"] if commit is None else ["ls-tree", "-r", "--name-only", commit, "crates"]
    for path in subprocess.run([*git, *listed], check=True, capture_output=True, text=True).stdout.split("\n"):
        if path.endswith((".rt", ".antt", ".edit")) and "/data/" not in path:
            if commit is None:
                if os.path.exists(f"{TOP}/{path}"):
                    yield path, open(f"{TOP}/{path}", encoding="utf-8").read()
            else:
                yield path, subprocess.run([*git, "show", f"{commit}:{path}"], check=True, capture_output=True, text=True).stdout


def flat(lines):
    """Lines as one, with one space for each run of spaces, and no comma before a closing bracket."""
    return re.sub(r",? ?([)\]])", r"\1", re.sub(r"([(\[]) ", r"\1", " ".join(" ".join(lines).split())))


def functions(text):
    """The name, signature and clauses of each function of a .rt file."""
    lines = text.split("\n")
    owner = ""
    i = 0
    while i < len(lines):
        line = lines[i]
        if re.match(r"(impl|trait|pub trait)\b", line):
            owner = re.sub(r"^(pub )?(impl|trait)(<[^>]*>)? ?| ?(where.*|\{)$", "", line) + " "
        elif line == "}":
            owner = ""
        found = FN.match(line.strip())
        if not found:
            i += 1
            continue
        parts = [[]]
        while True:
            word = lines[i].strip()
            if word == "{":
                break
            if CLAUSE.match(word):
                parts.append([])
            elif len(parts) == 1 and word.endswith((" {", ";", "}")):
                parts[-1].append(word[:-1] if word.endswith(" {") else word)
                break
            parts[-1].append(word)
            if len(parts) > 1 and word.endswith(";"):
                break
            i += 1
        signature = re.sub(r"^.*?\bfn \w+", "", flat(parts[0])).strip()
        yield owner + found.group(1), signature, [flat(clause) for clause in parts[1:]]
        i += 1


def definitions(text):
    """The name and text of each definition of a .antt file."""
    lines = text.split("\n")
    for i, line in enumerate(lines):
        found = DEFINITION.match(line.strip())
        if found:
            end = i
            depth = len(line) - len(line.lstrip())
            while end < len(lines) and lines[end].strip() and (end == i or not re.match(rf"\s{{0,{depth}}}(--|pub|abbrev|unfoldable|module)\b", lines[end])):
                end += 1
            yield found.group(1) or found.group(2), " ".join(" ".join(lines[i:end]).split())


def read(commit):
    signatures, clauses, defined, edits = {}, {}, {}, {}
    for path, text in files(commit):
        crate, rest = path.split("/", 2)[1:]
        if path.endswith(".edit"):
            edits[f"{crate} {rest}"] = " ".join(text.split())
        elif path.endswith(".antt") and rest.startswith("specs/"):
            defined.update((f"{crate} {name}", said) for name, said in definitions(text))
        elif path.endswith(".rt"):
            for name, signature, said in functions(text):
                signatures[f"{crate} {rest} {name}"] = signature
                clauses[f"{crate} {rest} {name}"] = said
    return signatures, clauses, defined, edits


def changed(what, old, new):
    """The entries of both that differ."""
    names = sorted(name for name in old if name in new and old[name] != new[name])
    print(f"\n## {what} that changed: {len(names)}\n\n```text")
    for name in names:
        print(name)
        for mark, said in (("-", old[name]), ("+", new[name])):
            for one in said if isinstance(said, list) else [said]:
                print(f"    {mark} {one}")
    print("```")


def gone(what, old, new):
    names = sorted(name for name in old if name not in new)
    print(f"\n## {what} that went: {len(names)}\n\n```text")
    print("\n".join(names) + "\n```")


def main(words):
    if len(words) not in (1, 2):
        sys.exit(__doc__)
    old, new = read(words[0]), read(words[1] if len(words) == 2 else None)
    for what, before, after in zip(("Signatures", "Clauses", "Definitions", "Edits"), old, new):
        changed(what, before, after)
        if what in ("Definitions", "Edits"):
            gone(what, before, after)


if __name__ == "__main__":
    main(sys.argv[1:])
