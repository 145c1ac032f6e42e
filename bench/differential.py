#!/usr/bin/env python3
"""Compares the program's answers with those of a slow planner that goes over all plans, on random tiny instances.

    bench/differential.py [--program PROGRAM] [COUNT [SEED]]     so many instances (2,000), from this seed on (1)

Instances have all 21 kinds of constraints and all states. Each is planned with five budgets. An answer must be the
slow planner's where it is decided, must undercut nothing where it is not, its plan must be valid with that cost, and
a strict check must accept its certificate. The first difference is printed with its instance, and ends with status 1.
"""
import argparse
import json
import os
import random
import subprocess
import sys
import tempfile

import plain_planner as plain

TOP = os.path.dirname(os.path.dirname(os.path.realpath(__file__)))
PROGRAM = os.path.join(TOP, "crates", "btrplan", "out", "btrplan")
BUDGETS = (100_000, 0, 1, 3, 10)
MOST_PLANS = 4_000


def some(pick, items, least=0):
    return sorted(pick.sample(items, pick.randint(min(least, len(items)), len(items))))


def machine(pick, number, nodes, resources):
    state = pick.choice(["running"] * 6 + ["sleeping", "sleeping", "ready", "init", "gone"])
    online = [n["name"] for n in nodes if n["online"]]
    if state in ("running", "sleeping") and not online:
        state = "ready"
    made = {"name": f"v{number}", "state": state, "use": {r: pick.randint(0, 3) for r in resources}}
    if state in ("running", "sleeping"):
        made["node"] = pick.choice(online)
    if pick.random() < 0.2:
        made["durations"] = {"migrate": {"base": pick.randint(1, 2)}}
    return made


def constraint(pick, kind, machines, nodes, resources):
    c = {"kind": kind}
    if kind in ("spread", "gather", "lonely", "ban", "fence", "among", "root", "serialize", "preserve", "running",
                "sleeping", "ready", "killed"):
        c["machines"] = some(pick, machines, 1)
    if kind in ("ban", "fence", "resourceCapacity", "runningCapacity", "maxOnline", "overbook", "online", "offline"):
        c["nodes"] = some(pick, nodes, 1)
    if kind in ("preserve", "resourceCapacity", "overbook"):
        c["resource"] = pick.choice(resources)
    if kind in ("preserve", "resourceCapacity", "runningCapacity", "maxOnline"):
        c["amount"] = pick.randint(0, 4)
    if kind == "among":
        c["groups"] = [some(pick, nodes) for _ in range(pick.randint(1, 2))]
    if kind == "split":
        apart = pick.sample(machines, len(machines))
        cut = pick.randint(0, len(apart))
        c["parts"] = [sorted(apart[:cut]), sorted(apart[cut:])]
    if kind == "overbook":
        c["num"], c["den"] = pick.randint(1, 4), pick.randint(1, 3)
    if kind == "precedence":
        if len(machines) < 2:
            return None
        c["before"], c["after"] = pick.sample(machines, 2)
    if kind in ("spread", "gather", "lonely", "ban", "fence", "among", "split", "resourceCapacity", "runningCapacity",
                "maxOnline"):
        c["continuous"] = pick.random() < 0.5
    return c


KINDS = ("spread ban fence gather lonely among split root precedence serialize preserve resourceCapacity "
         "runningCapacity maxOnline overbook online offline running sleeping ready killed").split()


def instance(pick):
    resources = ["cpu", "mem"][: pick.randint(1, 2)]
    nodes = [{"name": f"n{i}", "online": pick.random() < 0.8, "capacity": {r: pick.randint(1, 6) for r in resources}}
             for i in range(pick.randint(1, 3))]
    machines = [machine(pick, i, nodes, resources) for i in range(pick.randint(0, 3))]
    made = {"horizon": pick.randint(0, 4), "resources": resources, "nodes": nodes, "machines": machines,
            "constraints": []}
    if pick.random() < 0.3:
        made["durations"] = {"migrate": {"base": 1, "per": 1, "resource": resources[0]},
                             "node_shutdown": {"base": pick.randint(1, 2)}}
    names = [m["name"] for m in machines]
    for _ in range(pick.randint(0, 4)):
        c = constraint(pick, pick.choice(KINDS), names, [n["name"] for n in nodes], resources)
        if c:
            made["constraints"].append(c)
    return made


def call(*words):
    ran = subprocess.run(words, capture_output=True, text=True, timeout=120)
    return ran.stdout.strip()


def wrong(p, best, budget, line, plan, verdict):
    """What is wrong with an answer, or None."""
    words = line.split()
    cost = None if plan is None else plain.cost_of_file(p, plan)
    if plan is not None and cost is None:
        return "its plan is not valid"
    if words[:1] == ["optimal"]:
        if best is None or int(words[1]) != best or cost != best:
            return f"the cheapest plan costs {best}"
    elif words[:1] == ["infeasible"]:
        if best is not None or plan is not None:
            return f"a plan of cost {best} is valid"
    elif words[:1] == ["undecided"]:
        least = int(words[-1])
        if words[1] == "best" and int(words[2]) != cost or (words[1] == "best") != (plan is not None):
            return "the line is not of the plan"
        if best is not None and least > best or budget >= 100_000:
            return f"the cheapest plan costs {best}"
    else:
        return "it is no answer"
    wanted = f"yes undecided {budget} least {words[-1]}" if words[0] == "undecided" else f"yes {line}"
    return None if verdict == wanted else f"a strict check says: {verdict}"


def main():
    asked = argparse.ArgumentParser(description="Compares answers with those of a planner that goes over all plans.")
    asked.add_argument("--program", default=PROGRAM)
    asked.add_argument("count", type=int, nargs="?", default=2_000, help="instances")
    asked.add_argument("seed", type=int, nargs="?", default=1, help="the first seed")
    asked = asked.parse_args()
    seed, answers, done = asked.seed, {}, 0
    with tempfile.TemporaryDirectory() as room:
        files = [os.path.join(room, it) for it in ("instance.json", "plan.json", "certificate.txt")]
        while done < asked.count:
            given = instance(random.Random(seed))
            seed += 1
            p = plain.Instance(given)
            if plain.plan_count(p) > MOST_PLANS:
                continue
            with open(files[0], "w", encoding="utf-8") as it:
                json.dump(given, it)
            best = plain.least_cost(p)
            for budget in BUDGETS:
                line = call(asked.program, "plan", *files, "budget", str(budget))
                with open(files[1], encoding="utf-8") as it:
                    plan = json.load(it)
                fault = wrong(p, best, budget, line, plan, call(asked.program, "check", *files, "strict"))
                if fault:
                    print(f"seed {seed - 1}, budget {budget}: {line}: {fault}\n{json.dumps(given)}")
                    return 1
                answers[line.split()[0]] = answers.get(line.split()[0], 0) + 1
            done += 1
    print(f"{done} instances, {len(BUDGETS)} budgets each, no difference: {json.dumps(answers, sort_keys=True)}")
    return 0


if __name__ == "__main__":
    sys.exit(main())
