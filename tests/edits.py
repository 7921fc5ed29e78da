#!/usr/bin/env python3
"""Tries the must-fail edits of crates/NAME/more-edits: the prover must refuse each. Its last line is 'N passed, M failed'.

    tests/edits.py [NAME ...]      after `rt ci` or `rt check`

`rt ci` tries the edits under must-fail/. Here those of more-edits/ are tried the same way, by `rt must-fail` in a copy of the crates in which
they stand under must-fail/. An edit that can't be applied or read, that is proved, or that is refused only for a name that it took away counts as failed.
"""
import glob
import os
import re
import shutil
import subprocess
import sys
import tempfile

TOP = os.path.dirname(os.path.dirname(os.path.abspath(__file__)))
REFUSED = re.compile(r"^rt: must-fail (\S+)/(\S+\.edit): refused, as it must be")
SAID = re.compile(r"^rt: must-fail (\S+)/(\S+\.edit): ")


def copied(to, names):
    """Copies what a check reads, with the further edits of the named crates as their must-fail edits."""
    for name in ("crates.txt", "HANDLES"):
        if os.path.exists(f"{TOP}/{name}"):
            shutil.copy(f"{TOP}/{name}", f"{to}/{name}")
    shutil.copytree(f"{TOP}/crates", f"{to}/crates", symlinks=True)
    for name in names:
        folder = f"{to}/crates/{name}"
        shutil.rmtree(f"{folder}/must-fail", ignore_errors=True)
        os.rename(f"{folder}/more-edits", f"{folder}/must-fail")
    subprocess.run(["git", "init", "-q"], cwd=to, check=True)


def main(asked):
    found = sorted(glob.glob(f"{TOP}/crates/*/more-edits/*.edit"))
    wanted = {(edit.split("/")[-3], os.path.basename(edit)) for edit in found}
    wanted = {it for it in wanted if not asked or it[0] in asked}
    names = sorted({it[0] for it in wanted})
    with tempfile.TemporaryDirectory(prefix="edits-") as room:
        copied(room, names)
        run = subprocess.run(["rt", "must-fail", *names], cwd=room, stdout=subprocess.PIPE, stderr=subprocess.STDOUT, text=True)
    refused = set()
    for line in run.stdout.split("\n"):
        # refused for a name alone, which shows nothing of a contract
        if REFUSED.match(line) and "only because a proof file names" not in line:
            refused.add(REFUSED.match(line).groups())
        if SAID.match(line):
            print(line[:300])
    for name, edit in sorted(wanted - refused):
        print(f"{name}/{edit}: not refused")
    if wanted - refused:
        print(run.stdout[-3000:])
    print(f"{len(wanted & refused)} passed, {len(wanted - refused)} failed")
    return 1 if wanted - refused else 0


if __name__ == "__main__":
    sys.exit(main(set(sys.argv[1:])))
