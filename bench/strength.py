#!/usr/bin/env python3
"""Says how far a budget of decisions comes on many instances, beside another program if one is named.

    bench/strength.py [--folder FOLDER] [--budget N] [--strict] [--limit SECONDS] [--megabytes N] [--beside PROGRAM] [WORD..]

The instances are the `.json` files of a folder, or without one those of `bench/families.py` and the operations of
`bench/operations.py` on 40 nodes and 200 machines; of them those whose names begin with a WORD, or all. Each row says the
answer, the decisions, the processor seconds of `plan` in user mode, and what `check` says of the certificate, with `--strict`
also a strict check. A call that takes more processor seconds than the limit (60), or writes a longer certificate, is given up.
Where the certificate was too long it is run again without one, and where it took too long with a tenth of the budget; the
column for `check` says so.

Another program is one that takes the words `plan INSTANCE PLAN CERTIFICATE budget N` and prints such answers, as an older
build. Then each row says what it answers, and in what this one is worse: `dearer` for its plan, `lower` for its least,
`undecided` where the other one decides, and `decisions` or `slower` for more than three times as much.
"""
import argparse
import json
import os
import resource
import signal
import subprocess
import sys
import tempfile

import families
import operations

PROGRAM = families.PROGRAM
# seconds below which two times are not compared: most of them is the start of the program
SHORT = 0.1
TOO_LONG, GIVEN_UP = "too long", "given up"


def instances(folder, words):
    """Names, and the paths or the values of instances."""
    if folder:
        found = [(it[:-5], os.path.join(folder, it)) for it in sorted(os.listdir(folder)) if it.endswith(".json")]
    else:
        rows = [*families.ROWS, *((make, 40, 200, 1) for make in operations.ALL)]
        found = [(" ".join([make.__name__.replace("_", "-"), *map(str, sizes)]), (make, sizes)) for make, *sizes in rows]
    return [it for it in found if not words or any(it[0].startswith(word) for word in words)]


def run(words, limit, megabytes):
    """Runs a program: its last line, and seconds in user mode."""
    def bounded():
        resource.setrlimit(resource.RLIMIT_FSIZE, (megabytes * 1_000_000, megabytes * 1_000_000))
        resource.setrlimit(resource.RLIMIT_CPU, (limit, limit + 10))
    before = resource.getrusage(resource.RUSAGE_CHILDREN).ru_utime
    ran = subprocess.run(words, capture_output=True, text=True, preexec_fn=bounded)
    after = resource.getrusage(resource.RUSAGE_CHILDREN).ru_utime
    line = (ran.stdout.strip().splitlines() or [f"status {ran.returncode}"])[-1]
    line = {-signal.SIGXFSZ: TOO_LONG, -signal.SIGXCPU: GIVEN_UP}.get(ran.returncode, line)
    return line, after - before


def decisions(path):
    """The decisions of a certificate; none where the program left no file."""
    if not os.path.exists(path):
        return None
    with open(path, "rb") as lines:
        return sum(line.startswith(b"decide ") for line in lines)


class Row:
    """What one program makes of one instance."""

    def __init__(self, program, path, room, given, is_ours):
        plan, certificate = os.path.join(room, "plan.json"), os.path.join(room, "certificate.txt")
        words = [program, "plan", path, plan, certificate, "budget", str(given.budget)]
        self.line, self.seconds = run(words, given.limit, given.megabytes)
        self.count = None
        self.verdict = {TOO_LONG: f"over {given.megabytes} MB", GIVEN_UP: f"over {given.limit} s"}.get(self.line, "")
        if self.verdict:
            if os.path.exists(certificate):
                os.remove(certificate)
            words[4] = os.devnull
            if self.line == GIVEN_UP:
                words[6] = str(given.budget // 10)
            self.line, self.seconds = run(words, given.limit, given.megabytes)
        else:
            self.count = decisions(certificate)
            if is_ours:
                self.verdict = self.checked([program, "check", path, plan, certificate], given)
        for it in (plan, certificate):
            if os.path.exists(it):
                os.remove(it)

    def checked(self, words, given):
        told = []
        for more in [[], ["strict"]] if given.strict else [[]]:
            verdict, _ = run([*words, *more], 10 * given.limit, given.megabytes)
            told.append("yes" if verdict.startswith(f"yes {self.line.split()[0]}") else verdict)
        return ", ".join(told)

    def is_decided(self):
        return self.line.startswith(("optimal", "infeasible"))

    def number(self, word):
        """The number after a word of the answer; an optimum is both best and least."""
        words = self.line.split()
        if words[:1] == ["optimal"]:
            return int(words[1])
        return int(words[words.index(word) + 1]) if word in words[:-1] else None

    def cells(self):
        count = "" if self.count is None else f"{self.count:,}"
        return [self.line, count, f"{self.seconds:.2f}"]


def worse(ours, other):
    """In what one row is worse than another one."""
    found = []
    if other.is_decided() and not ours.is_decided():
        found.append("undecided")
    best, other_best = ours.number("best"), other.number("best")
    if other_best is not None and (best is None or best > other_best):
        found.append("dearer")
    least, other_least = ours.number("least"), other.number("least")
    if other_least is not None and least is not None and least < other_least:
        found.append("lower")
    both = other.is_decided() and ours.is_decided() and ours.count is not None and other.count is not None
    if both and ours.count > 3 * max(other.count, 1):
        found.append("decisions")
    if ours.seconds > max(3 * other.seconds, SHORT):
        found.append("slower")
    return ", ".join(found)


def main():
    given = argparse.ArgumentParser(description="Says how far a budget of decisions comes on many instances.")
    given.add_argument("--folder", help="a folder of instances")
    given.add_argument("--budget", type=int, default=100_000, help="decisions")
    given.add_argument("--strict", action="store_true", help="check each certificate strictly too")
    given.add_argument("--limit", type=int, default=60, help="processor seconds after which a call is given up")
    given.add_argument("--megabytes", type=int, default=200, help="the longest certificate that is kept")
    given.add_argument("--program", default=PROGRAM, help="the program, if not the one that the gate builds")
    given.add_argument("--beside", help="another program")
    given.add_argument("words", nargs="*", help="how the names of the instances begin that are planned")
    given = given.parse_args()
    titles = ["instance", "answer", "decisions", "s", "check"]
    titles += ["the other", "decisions", "s", "worse"] if given.beside else []
    print(f"| {' | '.join(titles)} |\n|{'---|' * len(titles)}", flush=True)
    counts = {}
    with tempfile.TemporaryDirectory() as room:
        for name, source in instances(given.folder, given.words):
            path = source
            if not given.folder:
                path = os.path.join(room, "instance.json")
                with open(path, "w", encoding="utf-8") as it:
                    json.dump(source[0](*source[1]), it)
            ours = Row(given.program, path, room, given, True)
            cells = [name, *ours.cells(), ours.verdict]
            counts[ours.line.split()[0]] = counts.get(ours.line.split()[0], 0) + 1
            if given.beside:
                other = Row(given.beside, path, room, given, False)
                cells += [*other.cells(), worse(ours, other)]
            print(f"| {' | '.join(cells)} |", flush=True)
    print(f"\n{json.dumps(counts, sort_keys=True)}")
    return 0


if __name__ == "__main__":
    sys.exit(main())
