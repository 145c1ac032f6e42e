#!/usr/bin/env python3
"""Runs `explain` of the built program over instances with and without a valid plan, and compares the lines, the status
and the two files, byte for byte.

    bench/explains.py [COUNT [SEED [PROGRAM]]]     so many random instances (500), from this seed on (1)

What is wanted comes from `plan` alone, which is asked of the instance with each choice of its constraints: the order in
which they are tried, what each search finds within the budget, and the certificate of the last one. Each core is
checked too, strictly. A planner that goes over all plans then looks at the core and at all smaller ones: the core has no
valid plan, and each that lacks one constraint has one that costs no more than was said. So has each that lacks more,
unless a wish, a `preserve` or an `overbook` is among them. The first difference is printed, and ends with status 1.
"""
import itertools
import json
import os
import random
import subprocess
import sys
import tempfile

import differential
import plain_planner as plain

COUNT = int(sys.argv[1]) if len(sys.argv) > 1 else 500
SEED = int(sys.argv[2]) if len(sys.argv) > 2 else 1
PROGRAM = sys.argv[3] if len(sys.argv) > 3 else differential.PROGRAM
BUDGETS = (10_000, 0, 1, 2, 3)
OLD = b"old"
# where the legal choices of a core make more plans than this, the planner is not asked
MOST_CORE_PLANS = 50_000
# where one of these is lost, plans that were valid may not be legal, and all trials are made anew
SETTLED = ("online", "offline", "running", "sleeping", "ready", "killed", "preserve", "overbook")


def on_nodes(names, machines, constraints, horizon=20):
    """An instance of machines (name, host, use) on nodes with 4 of one resource each. A migration takes 3."""
    return {"horizon": horizon, "resources": ["cpu"], "durations": {"migrate": {"base": 3}},
            "nodes": [{"name": name, "capacity": {"cpu": 4}} for name in names],
            "machines": [{"name": name, "state": "running", "node": host, "use": {"cpu": use}}
                         for name, host, use in machines],
            "constraints": [*constraints, {"kind": "online", "nodes": names}]}


EXCHANGE = on_nodes(["n0", "n1"], [("v0", "n0", 3), ("v1", "n1", 3)],
                    [{"kind": "fence", "machines": ["v0"], "nodes": ["n1"]},
                     {"kind": "fence", "machines": ["v1"], "nodes": ["n0"]}])
OVERLOADED = on_nodes(["n0", "n1"], [("v0", "n0", 3), ("v1", "n0", 2)], [])
LEAVES = on_nodes(["n0", "n1"], [("v0", "n0", 1)], [{"kind": "ban", "machines": ["v0"], "nodes": ["n0"]}])
# it is to leave its node, and to stay there
CONTRARY = on_nodes(["n0", "n1"], [("v0", "n0", 1)],
                    [{"kind": "ban", "machines": ["v0"], "nodes": ["n0"]},
                     {"kind": "fence", "machines": ["v0"], "nodes": ["n0"]}])
# three that are to be apart, and two of three nodes for them
APART = on_nodes(["n0", "n1", "n2"], [("v0", "n0", 1), ("v1", "n1", 1), ("v2", "n2", 1)],
                 [{"kind": "spread", "machines": ["v0", "v1", "v2"]},
                  {"kind": "fence", "machines": ["v0", "v1", "v2"], "nodes": ["n0", "n1"]}])

# the instance, the budget, the lines and the status
ROWS = [
    (EXCHANGE, 10_000, "needed 1 cost 0\nexplained 1\n", 0),
    (OVERLOADED, 10_000, "explained 0\n", 0),
    (LEAVES, 10_000, "feasible 3\n", 1),
    (CONTRARY, 10_000, "needed 0 cost 0\nneeded 1 cost 3\nexplained 2\n", 0),
    (APART, 10_000, "needed 0 cost 3\nneeded 1 cost 0\nexplained 2\n", 0),
    # the first search stays open, and one after the first
    (differential.instance(random.Random(3)), 0, "undecided 1\n", 2),
    (differential.instance(random.Random(50)), 0, "undecided 2\n", 2),
]


def run(*words):
    done = subprocess.run([PROGRAM, *words], capture_output=True, check=False, timeout=300)
    return done.stdout.decode(), done.returncode


def put(room, name, data):
    path = os.path.join(room, name)
    with open(path, "wb") as it:
        it.write(data)
    return path


def read(path):
    with open(path, "rb") as it:
        return it.read()


def sub(given, kept):
    return {**given, "constraints": [given["constraints"][c] for c in kept]}


def printed(room, given):
    """The instance as the program prints it."""
    out = os.path.join(room, "printed")
    instance, script = put(room, "given", json.dumps(given).encode()), put(room, "script", b"")
    if run("script", instance, script, out) != ("scripted 0\n", 0):
        raise ValueError("the instance is not printed")
    return read(out)


def searched(room, given, kept, budget):
    """What a search of those constraints alone finds: the cost of a plan, "none" or "open", and the certificate."""
    files = [put(room, "sub", json.dumps(sub(given, kept)).encode()), *(os.path.join(room, it) for it in ("plan", "cert"))]
    words = run("plan", *files, "budget", str(budget))[0].split()
    if words[0] == "optimal":
        return int(words[1]), b""
    if words[0] == "infeasible":
        return "none", read(files[2])
    if words[1] == "best":
        return int(words[2]), b""
    return "open", read(files[2])


def wanted(room, given, budget):
    """The lines, the status, and which constraints are kept with what certificate, if any file is written."""
    kept = list(range(len(given["constraints"])))
    found, cert = searched(room, given, kept, budget)
    if found == "open":
        return f"undecided {len(kept)}\n", 2, kept, cert
    if found != "none":
        return f"feasible {found}\n", 1, None, None
    costs = []
    while len(costs) < len(kept):
        c = kept[len(costs)]
        without = [x for x in kept if x != c]
        found, fewer = searched(room, given, without, budget)
        if found == "open":
            return f"undecided {len(without)}\n", 2, without, fewer
        if found == "none":
            kept, cert = without, fewer
            costs = [] if given["constraints"][c]["kind"] in SETTLED else costs
        else:
            costs.append(found)
    lines = [f"needed {c} cost {cost}\n" for c, cost in zip(kept, costs)]
    return "".join(lines) + f"explained {len(kept)}\n", 0, kept, cert


def explained(room, given, budget):
    instance = put(room, "instance", json.dumps(given).encode())
    files = [put(room, "core", OLD), put(room, "certificate", OLD)]
    asked = run("explain", instance, *files, "budget", str(budget))
    if budget == 10_000 and asked != run("explain", instance, *files):
        return (*asked, None, None)
    return (*asked, *map(read, files))

def core_fault(given, kept, costs):
    """What the planner that goes over all plans says of a core that is none, or that is not least."""
    whole = plain.Instance(sub(given, kept))
    if plain.plan_count(whole) <= MOST_CORE_PLANS and plain.least_cost(whole) is not None:
        return "the core has a valid plan"
    for size in range(1, len(kept) + 1):
        for lost in itertools.combinations(range(len(kept)), size):
            if size > 1 and any(given["constraints"][kept[i]]["kind"] in SETTLED for i in lost):
                continue
            smaller = plain.Instance(sub(given, [c for i, c in enumerate(kept) if i not in lost]))
            if plain.plan_count(smaller) > MOST_CORE_PLANS:
                continue
            least = plain.least_cost(smaller)
            if least is None or size == 1 and least > costs[lost[0]]:
                return f"without {[kept[i] for i in lost]} of {kept} the cheapest plan costs {least}"
    return None


def fault(room, given, budget, answer):
    lines, status, kept, cert = answer
    files = (OLD, OLD) if kept is None else (printed(room, sub(given, kept)), cert)
    said = explained(room, given, budget)
    if said != (lines, status, *files):
        return f"{said}, wanted {(lines, status, *files)}"
    if kept is not None:
        none = put(room, "none", b"null")
        verdict = run("check", os.path.join(room, "core"), none, os.path.join(room, "certificate"), "strict")[0]
        if not verdict.startswith("yes infeasible\n" if status == 0 else f"yes undecided {budget}"):
            return f"a strict check says {verdict!r}"
        if status == 0:
            return core_fault(given, kept, [int(line.split()[3]) for line in lines.splitlines()[:-1]])
    return None


def refused(room):
    """Words and instances that are refused leave both files."""
    files = [put(room, "core", OLD), put(room, "certificate", OLD)]
    instance = put(room, "instance", b'{"horizon":')
    rows = [(("explain", instance, *files), "input instance not json\n", 4),
            (("explain", instance, files[0], files[0]), "words\n", 3),
            (("explain", instance, *files, "budget", "01"), "words\n", 3),
            (("explain", instance, *files, "strict"), "words\n", 3)]
    for words, line, status in rows:
        if run(*words) != (line, status) or [read(file) for file in files] != [OLD, OLD]:
            return f"{words}: {run(*words)}"
    return None


def main():
    answers, done, seed = {}, 0, SEED
    with tempfile.TemporaryDirectory() as room:
        wrong = refused(room)
        if wrong:
            print(wrong)
            return 1
        for given, budget, lines, status in ROWS:
            answer = wanted(room, given, budget)
            wrong = f"wanted {answer[:2]}" if answer[:2] != (lines, status) else fault(room, given, budget, answer)
            if wrong:
                print(f"{json.dumps(given)} budget {budget}: {wrong}")
                return 1
        while done < COUNT:
            given = differential.instance(random.Random(seed))
            seed += 1
            if plain.plan_count(plain.Instance(given)) > differential.MOST_PLANS:
                continue
            for budget in BUDGETS:
                answer = wanted(room, given, budget)
                wrong = fault(room, given, budget, answer)
                if wrong:
                    print(f"seed {seed - 1} budget {budget}: {wrong}\n{json.dumps(given)}")
                    return 1
                last = answer[0].split("\n")[-2].split()
                kind = last[0] if last[0] == "feasible" else " ".join(last)
                answers[kind] = answers.get(kind, 0) + 1
            done += 1
    print(f"{len(ROWS)} rows and {done} instances, no difference: {dict(sorted(answers.items()))}")
    return 0


if __name__ == "__main__":
    sys.exit(main())
