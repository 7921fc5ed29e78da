#!/usr/bin/env python3
"""Compares the static library with the model on generated calls.

    python3 tests/differential/run.py [CALLS] [SEED]

    --workers N      processes, 2 by default; worker W of N takes the cases whose number leaves the remainder W
    --archive FILE   the library, target/staticlib/libwarnbox.a by default
    --case NAME      repeats one case and prints all of its calls
    --model          runs the model alone

Ends with status 1 where any call differs, or a worker dies or stands still.
"""
import argparse
import collections
import multiprocessing
import multiprocessing.connection
import sys
import tempfile
import time

import compare
import library

SHARES = {"documents": 46, "packets": 16, "tables": 14, "sheets": 10, "texts": 14}  # percent of the calls
PATIENCE = 120  # seconds that one case may take
assert sum(SHARES.values()) == 100 and SHARES.keys() == compare.KINDS.keys()


class Tally:
    """What one or more workers found."""

    def __init__(self):
        self.counts = collections.Counter()   # by (kind, function, answer)
        self.cases = collections.Counter()    # by kind
        self.seconds = collections.Counter()  # by kind, added over the workers
        self.differ = 0

    def add(self, other):
        self.counts += other.counts
        self.cases += other.cases
        self.seconds += other.seconds
        self.differ += other.differ


# ---- a worker

def work(worker, workers, calls, seed, shared, at, pipe):
    """Runs this worker's cases of each kind until its share of the calls is made. `at` always says which case it is in."""
    box = library.Library(shared) if shared else None
    tally = Tally()
    for index, (kind, share) in enumerate(SHARES.items()):
        begun, made, number = time.perf_counter(), 0, worker
        while made < calls * share / 100 / workers:
            at[0], at[1] = index, number
            counts, differences = compare.run_case(compare.case_name(seed, kind, number), box)
            for difference in differences:
                pipe.send(compare.described(difference))
            for (function, answer), n in counts.items():
                tally.counts[kind, function, answer] += n
            made += counts.total()
            number += workers
            tally.cases[kind] += 1
            tally.differ += len(differences)
        tally.seconds[kind] = time.perf_counter() - begun
    pipe.send(tally)


class Worker:
    def __init__(self, number, workers, calls, seed, shared):
        self.number, self.seed = number, seed
        self.at = multiprocessing.Array("q", 2, lock=False)
        self.seen, self.since = None, time.monotonic()
        self.pipe, theirs = multiprocessing.Pipe(duplex=False)
        self.process = multiprocessing.Process(target=work, args=(number, workers, calls, seed, shared, self.at, theirs))
        self.process.start()
        theirs.close()

    def case(self):
        return compare.case_name(self.seed, list(SHARES)[self.at[0]], self.at[1])

    def stands_still(self):
        if self.seen != tuple(self.at):
            self.seen, self.since = tuple(self.at), time.monotonic()
        return time.monotonic() - self.since > PATIENCE


def run(calls, seed, workers, shared):
    """Runs all workers, and prints what differs as it comes. Gives the tally, and how many workers failed."""
    tally, failed = Tally(), 0
    running = [Worker(number, workers, calls, seed, shared) for number in range(workers)]
    while running:
        ready = multiprocessing.connection.wait([worker.pipe for worker in running], timeout=PATIENCE / 4)
        for worker in list(running):
            if worker.pipe in ready:
                failed += not hear(worker, tally, running)
            elif worker.stands_still():
                print(f"worker {worker.number} stands still in case {worker.case()}", flush=True)
                worker.process.kill()
    return tally, failed


def hear(worker, tally, running):
    """Takes one message of a worker; False if it died."""
    try:
        message = worker.pipe.recv()
    except EOFError:
        worker.process.join()
        print(f"worker {worker.number} died with exit code {worker.process.exitcode} in case {worker.case()}", flush=True)
        running.remove(worker)
        return False
    if isinstance(message, str):
        print(message, flush=True)
        return True
    worker.process.join()
    tally.add(message)
    running.remove(worker)
    return True


# ---- the summary

def order(answer):
    return (0, int(answer)) if answer.isdigit() else (-1, 0)


def summary(tally):
    lines = ["| kind | function | calls | answers and refusals (number: calls) |", "|---|---|---|---|"]
    functions = collections.defaultdict(dict)
    for (kind, function, answer), n in sorted(tally.counts.items()):
        functions[kind, function][answer] = n
    for kind in SHARES:
        for (its_kind, function), answers in functions.items():
            if its_kind == kind:
                told = ", ".join(f"{answer}: {answers[answer]:,}" for answer in sorted(answers, key=order))
                lines.append(f"| {kind} | {function} | {sum(answers.values()):,} | {told} |")
    return "\n".join(lines)


def speeds(tally):
    by_kind = collections.Counter()
    for (kind, _, _), n in tally.counts.items():
        by_kind[kind] += n
    return "\n".join(f"{kind}: {by_kind[kind]:,} calls in {tally.cases[kind]:,} cases, {by_kind[kind] / max(tally.seconds[kind], 1e-9):,.0f} calls per second and core"
                     for kind in SHARES)


def arguments():
    parser = argparse.ArgumentParser(description=__doc__, formatter_class=argparse.RawDescriptionHelpFormatter)
    parser.add_argument("calls", nargs="?", type=int, default=20_000)
    parser.add_argument("seed", nargs="?", type=int, default=1)
    parser.add_argument("--workers", type=int, default=2)
    parser.add_argument("--archive", default=library.ARCHIVE)
    parser.add_argument("--case")
    parser.add_argument("--model", action="store_true")
    return parser.parse_args()


def main():
    given = arguments()
    begun = time.monotonic()
    with tempfile.TemporaryDirectory() as folder:
        shared = None if given.model else library.link(given.archive, folder)
        if given.case:
            sys.exit(1 if compare.repeat_case(given.case, library.Library(shared) if shared else None) else 0)
        tally, failed = run(given.calls, given.seed, given.workers, shared)
    print(summary(tally))
    print(speeds(tally))
    what = "made on the model alone" if given.model else "compared"
    print(f"{tally.counts.total():,} calls {what} with seed {given.seed} and {given.workers} workers in {time.monotonic() - begun:.0f} seconds, "
          f"{tally.differ} differ, {failed} workers failed")
    sys.exit(1 if tally.differ or failed else 0)


if __name__ == "__main__":
    main()
