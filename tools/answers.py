#!/usr/bin/env python3
"""Turns the Proof.antt files of a crate that close a record of goals into Invariants.antt and Answers.antt.

usage: answers.py NAMES.json OLD NEW [FUNCTION..]

NAMES.json is what `rt check --generated FOLDER --old-names` writes of the crate; OLD is the crate's folder as it was, NEW where the new
files go. An answer that is only a call of a tactic is left out: the check tries its tactics by itself.
"""
import json
import os
import re
import sys

NAME = r"[^\s(){}.;,@\"«»]+"
IDLE = re.compile(r"^(search (rules|needs)|omega arith|\(omega arith\)|refl)$")


def tops(text):
    """The top-level pieces of a file: (name, whole text), and its head of comments and uses."""
    pieces, head = [], []
    for block in re.split(r"\n(?=\S)", text.rstrip("\n")):
        line = block.split("\n")[0]
        if line.startswith("--") or line.startswith("use ") or line.startswith("module "):
            head.append(block)
            continue
        m = re.match(rf"((?:abbrev |pub |unfoldable )*)({NAME}) *:", line)
        if m and (not pieces or pieces[-1][0] != m[2]):
            pieces.append([m[2], [block]])
        elif pieces:
            pieces[-1][1].append(block)
        else:
            head.append(block)
    return head, [(n, "\n".join(b)) for n, b in pieces]


def arguments(text):
    """The arguments at depth 0 of an application."""
    out, depth, at = [], 0, None
    for i, ch in enumerate(text):
        if ch in "([{":
            if depth == 0 and at is None:
                at = i
            depth += 1
        elif ch in ")]}":
            depth -= 1
            if depth < 0:
                if at is not None:
                    out.append(text[at:i])
                return out
        elif ch.isspace() and depth == 0:
            if at is not None:
                out.append(text[at:i])
            at = None
            continue
        elif at is None:
            at = i
    if at is not None:
        out.append(text[at:])
    return out


def bare(term):
    term = term.strip()
    while term.startswith("(") and closes(term) and not is_tuple(term[1:-1]):
        term = term[1:-1].strip()
    return term


def is_tuple(text):
    depth = 0
    for ch in text:
        depth += ch in "([{"
        depth -= ch in ")]}"
        if ch == "," and depth == 0:
            return True
    return False


def closes(term):
    depth = 0
    for i, ch in enumerate(term):
        depth += ch in "(" 
        depth -= ch in ")"
        if depth == 0:
            return i == len(term) - 1
    return False


class Function:
    def __init__(self, entry):
        self.entry = entry
        self.places = {}
        for old, parent, step, *_ in entry["places"]:
            self.places[old] = (parent, step)

    def step(self, place, field):
        """The new path of a field at a place, or None."""
        field_ = field.replace("-", "_").removesuffix("_lem")
        if field in ("args", "ranges", "requires", "type_inv", "lifetimes"):
            return field
        while place is not None:
            parent, (old, new) = self.places[place]
            if old == field or old.replace("-", "_") == field_:
                return new
            place = parent
        return None

    def turn(self, term, place, var="c"):
        """A term with the paths from `var`, at a place, and from the names that it binds to places, as today's."""
        known = {var: place}

        def walk(name, rest):
            # steps have names of their own today, so how far before a step lies is not needed
            return known[name], [it for it in rest.split(".")[1:] if it != "before"]

        # bind the names of places
        def bind(m):
            name, source, rest = m[1], m[2], m[3]
            if source not in known:
                return m[0]
            at, fields = walk(source, rest)
            if at is not None and not fields:
                known[name] = at
                return ""
            return m[0]

        before = None
        while before != term:
            before = term
            term = re.sub(rf"\blet ({NAME}) = ({NAME})((?:\.before)*) in\s*", bind, term)

        def path(m):
            if m[1] not in known:
                return m[0]
            at, fields = walk(m[1], m[2])
            if at is None:
                return m[0]
            if not fields:
                return var
            new = self.step(at, fields[0])
            if new is None:
                return m[0]
            tail = fields[1:]
            return ".".join([var, new] + tail)

        names = "|".join(re.escape(k) for k in known)
        return re.sub(rf"(?<![^\s(){{}};,\[])({names})((?:\.{NAME})+)", path, term)


def is_idle(arg):
    term = bare(arg)
    if term.startswith("λ "):
        term = bare(term.split(".", 1)[1])
    return bool(IDLE.match(term)) or term == "_"


def aligned(needs, args, decl, where):
    """Goals and answers in pairs, where there are more answers than goals: those that name their goal are fixed points."""
    pairs, at, waiting = [], 0, []

    def settle(until):
        goals = needs[at:until]
        open_ = list(waiting)
        drop = lambda it: re.search(r"\.invariant(\.\d+)*\)?$", it)
        for test in (lambda it: bare(it) == "_", drop, is_idle):
            for it in list(open_):
                if len(open_) > len(goals) and test(it):
                    open_.remove(it)
        if len(open_) == len(goals):
            pairs.extend(zip(goals, open_))
        elif any(not is_idle(it) for it in waiting):
            told = [it for it in waiting if not is_idle(it)]
            returns = [it for it in goals if it[0].startswith("returns")]
            if len(told) == len(returns):
                pairs.extend(zip(returns, told))
            else:
                print(f"note: {where}: {len(goals)} goals, {len(open_)} answers: {'; '.join(told)}")

    for arg in args:
        term = bare(arg)
        m = re.search(r": tie\.Need-(\S+)", decl[term].split("\n")[0]) if term in decl else None
        index = next((i for i, it in enumerate(needs) if m and it[0].replace("_", "-") == m[1].replace("_", "-") and i >= at), None)
        if index is None:
            waiting.append(arg)
            continue
        settle(index)
        pairs.append((needs[index], arg))
        at, waiting = index + 1, []
    settle(len(needs))
    return [it[0] for it in pairs], [it[1] for it in pairs]


def convert(crate, path, text, entry):
    f = Function(entry)
    head, pieces = tops(text)
    decl = dict(pieces)
    where = path.replace("/", ".")
    uses = [h for h in head if h.startswith("use ") and ".Tie as" not in h and ".Statement." not in h and ".Statement as" not in h]
    notes = [h for h in head if h.startswith("--")]
    main = next((n for n, b in pieces if "tie.spec" in b and "tie.close" in b), None)
    if main is None:
        return None
    body = decl[main]
    opened = re.search(r"\n(unfolding .*(?:\n +\S.*)*?)\n(?=\S)", body)
    opened = opened[1] if opened else None
    m = re.search(r"tie\.spec\b", body)
    args = arguments(body[m.end():])
    invs, rest = [], list(args)
    while rest and rest[0] in decl and re.search(r": tie\.(invariant|decreases|ghost)", decl[rest[0]]):
        invs.append(rest.pop(0))
    needs = [(old, new, at[0]) for (old, new), at in zip(entry["needs"], entry["asked_at"])]
    if len(needs) != len(rest):
        needs, rest = aligned(needs, rest, decl, where)
    out_inv, out_ans, used = [], [], set(invs) | {main}
    loops = {old: (new, vs, ch) for ((old, new), vs), ch in zip(entry["loops"], entry["changed"])}
    for name in invs:
        block = decl[name]
        kind = re.search(r": tie\.(invariant|decreases)-(\S+)", block)
        if not kind:
            print(f"note: {where}: {name} is left")
            continue
        kind, loop = kind[1], kind[2]
        lines = block.split("\n", 1)[1]
        open_ = ""
        if lines.startswith("unfolding"):
            open_, lines = lines.split("\n", 1)
            open_ += "\n"
        eq = lines.index("=")
        params, term = lines[:eq].split()[1:], lines[eq + 1:]
        if loop in loops:
            new, vs, ch = loops[loop]
            rename = {}
            first, second = params[: len(vs)], params[len(vs):]
            changed = [v for v, c in zip(vs, ch) if c]
            for p, v, c in zip(first, vs, ch):
                rename[p] = f"l.initial.{v}" if c else f"l.{v}"
            for p, v in zip(second, changed):
                rename[p] = f"l.{v}"
        else:
            new, rename = loop, {p: f"l.{p}" for p in params}
        term = re.sub(NAME, lambda m: rename.get(m[0], m[0]) if not term[: m.start()].endswith(".") else m[0], term)
        out_inv.append(f"abbrev pub {kind}-{new} : goal.{kind}-{new}\n{open_}{kind}-{new} l ={term.rstrip()}")
    for (old, new, place), arg in zip(needs, rest):
        term, lead = bare(arg), "c"
        open_ = opened
        if term in decl and "tie." in decl[term].split("\n")[0]:
            used.add(term)
            block = decl[term].split("\n", 1)[1]
            if block.startswith("unfolding"):
                open_, block = block.split("\n", 1)
            eq = block.index("=")
            lead = " ".join(block[:eq].split()[1:])
            term = block[eq + 1:].strip()
        elif term.startswith("λ "):
            lead, term = term[2:].split(".", 1)
            lead, term = lead.strip(), bare(term)
        if IDLE.match(term) and not (open_ and re.match("returns|.*requires", new)):
            continue
        # what a call's result is in an arm: the call's clause is had at the variant today, and the check finds it
        if ".given" in term:
            print(f"note: {where}: {new} is left to the check: {term}")
            continue
        lead = lead.split()
        term = f.turn(term, place, lead[0] if lead else "c").replace(".type-inv", ".type_inv")
        # the test of an `if !x` is of x itself today
        term = re.sub(rf"not-(?:true|false) (?:{NAME}(?:\.{NAME})*|_) ((?:c|{NAME})\.if-not-{NAME}\.(?:true|false))", r"\1", term)
        more = "".join(" " + x for x in lead[1:] if x != "κs")
        text_ = f"pub {new} : goal.{new}\n" + (open_ + "\n" if open_ else "") + f"{new} {lead[0] if lead else 'c'}{more} = {term}"
        out_ans.append(text_)
    extra = [b for n, b in pieces if n not in used]
    for n, b in pieces:
        if n not in used and "tie." in b:
            print(f"note: {where}: {n} still names tie")
    G = f"use Rattle.{crate}.proofs.{where}."
    files = {}
    if out_inv:
        files["Invariants.antt"] = "\n".join(notes + uses + [G + "Given as goal", "", "\n\n".join(out_inv)]) + "\n"
    if out_ans:
        files["Answers.antt"] = "\n".join(([] if out_inv else notes) + uses + [G + "Goals as goal", "", "\n\n".join(extra + out_ans)]) + "\n"
    return files


def main():
    names, old, new = sys.argv[1:4]
    only = set(sys.argv[4:])
    crate = os.path.basename(old.rstrip("/"))
    data = json.load(open(names))
    for key, entry in data.items():
        path = key[len(f"Rattle-{crate}-proofs."):-len(".Lts")].replace(".", "/")
        if only and path not in only:
            continue
        source = os.path.join(old, "proofs", path, "Proof.antt")
        if not os.path.exists(source):
            continue
        files = convert(crate, path, open(source, encoding="utf-8").read(), entry)
        if files is None:
            print(f"note: {path}: no record of goals")
            continue
        target = os.path.join(new, "proofs", path)
        os.makedirs(target, exist_ok=True)
        for name, text in files.items():
            with open(os.path.join(target, name), "w", encoding="utf-8") as out:
                out.write(text)
        print(f"{path}: {', '.join(files) or 'nothing is left to answer'}")


if __name__ == "__main__":
    main()
