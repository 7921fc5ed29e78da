#!/usr/bin/env python3
"""Spells the definitions and lemmas that this repository declares in snake case: firstShape and first-shape become first_shape.

usage: respell.py [FOLDER]      (the top of the repository; run it once, after port.py)

What turns: the names declared in crates/*/specs and crates/*/proofs that hold a capital behind a small letter, or a dash,
wherever they stand as whole words in .antt files, in the clauses of .rt files, in .edit files, and in the code spans of .md files.
What stays: names that begin with a capital, names of goals (those that a Proof.antt alone declares, but for that of the proof
itself), names that a file brings in from a library, quoted texts, and Rust's code, which has no such names.
It prints each pair of words that would fall together in one file, and then writes nothing.
"""
import glob
import os
import re
import sys

WORD = re.compile(r'[^\s(){}\[\].,;@"«»|:`]+')
DECLARED = re.compile(r"^ *(?:(?:abbrev|unfoldable|pub|data|record|ruleset) +)*([^\s(){}:.]+)(?: *(?:\([^()]*\)|\{[^{}]*\}))* *:", re.M)
USE = re.compile(r"\buse ([^\s;{]+)\{([^}]*)\}")
QUOTED = re.compile(r'"(?:[^"\\\n]|\\.)*"')
# names whose plain spelling a library's word has that is used beside them
OTHERWISE = {"andThen": "answer_and_then"}
# lemmas that port.py had given a name that a definition gets here
LEMMAS = {it: it + "_lem" for it in ("is_state", "numbers_after", "digit_value")}


def snake(name):
    parts = re.sub(r"(?<=[a-z0-9])[A-Z]", lambda m: "_" + m[0].lower(), name)
    return parts.replace("-", "_")


def uncommented(text):
    return re.sub(r"(?m)(?:^|(?<=\s))--.*$", "", text)


def declared(top):
    names = set()
    for path in glob.glob(f"{top}/crates/*/specs/**/*.antt", recursive=True) + glob.glob(f"{top}/crates/*/proofs/**/*.antt", recursive=True):
        found = DECLARED.findall(uncommented(open(path, encoding="utf-8").read()))
        if os.path.basename(path) == "Proof.antt":
            found = [it for it in found if it.endswith("-spec")]
        names.update(found)
    return names


def table(top, own):
    rows = {}
    for name in declared(top):
        if name[0].isupper() or name != name.strip("-") or not re.search(r"[a-z0-9][A-Z]|[^-]-[^-]", name):
            continue
        rows[name] = OTHERWISE.get(name, snake(name))
    # a lemma that would get a definition's name: one of its own definition or, put_mid, of the library's
    defined = {new for old, new in rows.items() if "-" not in old} | declared(top) | {"put_mid"}
    return {old: new + "_lem" if "-" in old and new in defined else new for old, new in rows.items()}


def from_libraries(text, own):
    names = set()
    for path, items in USE.findall(text):
        steps = path.split(".")
        if steps[0] != "Rattle" or steps[1] not in own:
            names.update(WORD.findall(items))
    return names


def turn(text, rows):
    def outside(part):
        return WORD.sub(lambda m: rows.get(m[0], m[0]), part)

    out, at = [], 0
    for m in QUOTED.finditer(text):
        out += [outside(text[at : m.start()]), m[0]]
        at = m.end()
    return "".join(out + [outside(text[at:])])


def turn_antt(text, rows):
    lines = []
    for line in text.split("\n"):
        code, dash, comment = line, "", ""
        m = re.search(r"(?:^|(?<=\s))--(?=\s|$)", line)
        if m:
            code, comment = line[: m.start()], line[m.start() :]
        lines.append(turn(code, rows) + prose(comment, rows))
    return "\n".join(lines)


def turn_rt(text, rows):
    lines = []
    for line in text.split("\n"):
        m = re.search(r"(?:^|(?<=\s))//", line)
        code, comment = (line[: m.start()], line[m.start() :]) if m else (line, "")
        lines.append(turn(code, rows) + prose(comment, rows))
    return "\n".join(lines)


def spans(text, rows):
    return re.sub(r"`[^`\n]+`", lambda m: WORD.sub(lambda w: rows.get(w[0], w[0]), m[0]), text)


# elements of the documents, which comments name too
ELEMENTS = {"msgType", "mimeType", "areaDesc", "eventCode", "senderName", "responseType", "resourceDesc", "valueName"}


def prose(text, rows):
    """A comment: its code spans, and bare words with a capital inside."""
    camel = {old: new for old, new in rows.items() if "-" not in old and old not in ELEMENTS}
    return WORD.sub(lambda w: camel.get(w[0], w[0]), spans(text, rows))


def spelled(word, rows, known):
    new = rows.get(word) or snake(word)
    return new if word in rows or word not in ELEMENTS and word[0].islower() and new in known else word


def turn_edit(text, rows):
    lines, rust = [], False
    for line in text.split("\n"):
        rust = line.endswith(".rt") if line.startswith("file:") else rust
        lines.append(turn(line, rows) if re.match(r"(old|new):", line) else spans(line, rows))
    return "\n".join(lines)


def main():
    top = sys.argv[1] if len(sys.argv) > 1 else "."
    own = {os.path.basename(it) for it in glob.glob(f"{top}/crates/*")}
    rows = table(top, own)
    # pages name what port.py respelled by its older names too
    known = declared(top) | set(rows.values())
    page = lambda text, here: re.sub(r"`[^`\n]+`", lambda m: WORD.sub(lambda w: spelled(w[0], rows, known), m[0]), text)
    kinds = {".antt": turn_antt, ".rt": turn_rt, ".edit": turn_edit, ".md": page}
    paths = [it for ext in (".antt", ".rt", ".edit") for it in glob.glob(f"{top}/crates/**/*{ext}", recursive=True)]
    paths += glob.glob(f"{top}/*.md") + glob.glob(f"{top}/*/**/*.md", recursive=True)
    paths = sorted({it for it in paths if "/out/" not in it})
    out, met = {}, 0
    for path in paths:
        text = open(path, encoding="utf-8").read()
        ext = os.path.splitext(path)[1]
        others = from_libraries(text, own)
        here = {old: new for old, new in rows.items() if old not in others}
        if "/proofs/" in path:
            here.update(LEMMAS)
        if ext in (".antt", ".rt"):
            bare = QUOTED.sub(" ", uncommented(text) if ext == ".antt" else re.sub(r"//.*", "", text))
            # a word beside a dot names a module or a field
            words = set(re.findall(rf"(?<![^\s(){{}}\[\],;@«»|:]){WORD.pattern}(?!\.)", bare))
            if ext == ".rt":  # Rust's functions are no words of clauses
                words -= set(re.findall(r"\bfn (\w+)", text)) | set(re.findall(r"(\w+)\(", text))
            seen = {}
            for word in sorted(words):
                new = here.get(word, word)
                if seen.get(new, word) != word:
                    print(f"{path}: {seen[new]} and {word} would both be {new}")
                    met += 1
                seen[new] = word
        new = kinds[ext](text, here)
        if new != text:
            out[path] = new
    if met:
        sys.exit(f"{met} pairs fall together; nothing was written")
    for path, text in out.items():
        with open(path, "w", encoding="utf-8") as f:
            f.write(text)
    print(f"{len(rows)} names, {len(out)} files")


if __name__ == "__main__":
    main()
