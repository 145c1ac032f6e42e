#!/usr/bin/env python3
"""Runs `repair` of the built program over events that go on, fail or are refused, and compares the line, the status and
the two files, byte for byte.

    bench/repairs.py [--program PROGRAM] [COUNT [SEED]]     the rows, and so many executions (3,000), from this seed on (1)

A random execution is one of a random plan of a random small instance; some of its lines are spoilt. What is wanted of it is
told by a plain model of plans that are under way, which shares nothing with the program but the formats. What is left is
replayed, and at times planned too. The first difference is printed, and ends with status 1.
"""
import argparse
import collections
import copy
import json
import os
import random
import re
import subprocess
import sys
import tempfile

import differential
import plain_planner as plain

TOP = os.path.dirname(os.path.dirname(os.path.realpath(__file__)))
PROGRAM = os.path.join(TOP, "crates", "btrplan", "out", "btrplan")
INSTANCE = os.path.join(TOP, "examples", "swap.json")
PLAN = os.path.join(TOP, "examples", "swap_plan.json")
AT_ONCE = os.path.join(TOP, "examples", "swap_at_once.json")
OLD = b"old"
FIRST = {"element": "v1", "kind": "migrate", "place": "n2", "start": 0}
SECOND = {"element": "v0", "kind": "migrate", "place": "n1", "start": 3}

# the plan, the events, the line, the status, and where nothing is refused the hosts and the plan that are left
ROWS = [
    (PLAN, "start v1\nend v1\nstart v0\nfail v0\n", "repaired 6", 0, ("n0", "n2"), [SECOND]),
    (PLAN, "start v1\nend v1\n", "repaired 6", 0, ("n0", "n2"), [SECOND]),
    (PLAN, "start v1\nend v1\nstart v0\nend v0\n", "repaired 0", 0, ("n1", "n2"), []),
    (PLAN, "start v1\nfail v1\n", "repaired 9", 0, ("n0", "n1"), [SECOND, FIRST]),
    (PLAN, "", "repaired 9", 0, ("n0", "n1"), [SECOND, FIRST]),
    (PLAN, "start v1\n", "running v1", 1, None, None),
    (PLAN, "start v0\n", "input events 1 not ready", 4, None, None),
    (PLAN, "start v1\nstart v1\n", "input events 2 not ready", 4, None, None),
    (PLAN, "start v1\nend v1\nend v1\n", "input events 3 not running", 4, None, None),
    (PLAN, "fail v1\n", "input events 1 not running", 4, None, None),
    (PLAN, "start v9\n", "input events 1 no such name", 4, None, None),
    (PLAN, "stop v1\n", "input events 1 not a line", 4, None, None),
    (PLAN, "start v1", "input events 1 not a line", 4, None, None),
    (PLAN, "start v1\n" + "x" * 65_537, "input events 2 too long", 4, None, None),
    (AT_ONCE, "start v1\n", "broken 0 load n1 cpu", 1, None, None),
    (os.path.join(TOP, "examples", "no_plan.json"), "", "input plan no plan", 4, None, None),
]

KINDS = ("forge", "boot", "shutdown", "suspend", "resume", "migrate", "allocate", "kill", "node_boot", "node_shutdown")
FLAGGED = ("spread", "ban", "fence", "gather", "lonely", "among", "split", "resourceCapacity", "runningCapacity", "maxOnline")
MOST_LINE = 65_536
EVENT = re.compile(rb"(start|end|fail) ([A-Za-z0-9_][A-Za-z0-9_.-]{0,63})")


# ---- the plain model

def compact(value):
    return json.dumps(value, separators=(",", ":"), sort_keys=True).encode() + b"\n"


def printed(given):
    """The bytes of an instance as the program prints it."""
    made, resources = copy.deepcopy(given), given["resources"]
    made["durations"] = {kind: given.get("durations", {}).get(kind, {"base": 1}) for kind in KINDS}
    for node in made["nodes"]:
        node["online"] = node.get("online", True)
        node["capacity"] = {r: node.get("capacity", {}).get(r, 0) for r in resources}
    for machine in made["machines"]:
        machine["use"] = {r: machine.get("use", {}).get(r, 0) for r in resources}
    order = {node["name"]: at for at, node in enumerate(made["nodes"])}
    for c in made["constraints"]:
        if c["kind"] in FLAGGED:
            c["continuous"] = c.get("continuous", False)
        if "nodes" in c:
            c["nodes"].sort(key=order.get)
        if "groups" in c:
            c["groups"] = [sorted(group, key=order.get) for group in c["groups"]]
    return compact(made)


def listed(actions):
    """The actions of a plan file, from names and choices."""
    made = []
    for name, choice in actions:
        made.append({"element": name, "kind": choice.kind, "start": choice.start})
        if choice.place is not None:
            made[-1]["place"] = choice.place
    return {"actions": made}


class Execution:
    """A plan that is under way, and how far each of its actions is."""

    def __init__(self, p, choices):
        self.p = p
        self.names = [it["name"] for it in [*p.machines, *p.nodes]]
        self.actions = {name: it for name, it in zip(self.names, choices) if it.kind is not None}
        self.phases = dict.fromkeys(self.actions, "waiting")

    def running(self):
        return [name for name, phase in self.phases.items() if phase == "running"]

    def may_start(self, name):
        if self.phases.get(name) != "waiting" or "failed" in self.phases.values():
            return False
        start = self.actions[name].start
        return all(self.phases[x] == "ended" for x, it in self.actions.items() if it.end <= start)

    def take(self, line):
        """Takes an event line: why it is refused, or None."""
        found = EVENT.fullmatch(line)
        if not found:
            return "not a line"
        word, name = (it.decode() for it in found.groups())
        if name not in self.names:
            return "no such name"
        if word == "start":
            if not self.may_start(name):
                return "not ready"
            self.phases[name] = "running"
        else:
            if self.phases.get(name) != "running":
                return "not running"
            self.phases[name] = {"end": "ended", "fail": "failed"}[word]
        return None

    def follow(self, text):
        """Takes all lines: what is said where one is refused, or None."""
        number = 0
        while text:
            number += 1
            at = text.find(b"\n")
            if at > MOST_LINE or at < 0 and len(text) > MOST_LINE:
                return f"input events {number} too long"
            fault = "not a line" if at < 0 else self.take(text[:at])
            if fault:
                return f"input events {number} {fault}"
            text = text[at + 1:]
        return None

    def machine_left(self, machine):
        name, made = machine["name"], copy.deepcopy(machine)
        if self.phases.get(name) != "ended":
            return made
        choice = self.actions[name]
        host = made.pop("node", None)
        made["state"], node = {
            "forge": ("ready", None), "shutdown": ("ready", None), "kill": ("gone", None), "suspend": ("sleeping", host),
        }.get(choice.kind, ("running", choice.place))
        if node is not None:
            made["node"] = node
        if made["state"] == "running":
            made["use"] = dict(zip(self.p.resources, self.p.demand(machine)))
        return made

    def left(self, given):
        """The instance and the plan that are left, as bytes, and the cost of that plan."""
        made = copy.deepcopy(given)
        made["machines"] = [self.machine_left(it) for it in given["machines"]]
        for node in made["nodes"]:
            if self.phases.get(node["name"]) == "ended":
                node["online"] = not node.get("online", True)
        open_ones = [(name, it) for name, it in self.actions.items() if self.phases[name] != "ended"]
        return printed(made), compact(listed(open_ones)), sum(it.end for _, it in open_ones)

    def wanted(self, given, text):
        """The line, the status and the two files after these events."""
        said = self.follow(text)
        if said:
            return said, 4, [OLD, OLD]
        if self.running():
            return f"running {self.running()[0]}", 1, [OLD, OLD]
        instance, plan, cost = self.left(given)
        return f"repaired {cost}", 0, [instance, plan]


# ---- random executions

def instance(pick):
    """Larger ones than those of the differential test, with more room."""
    resources = ["cpu", "mem"][:pick.randint(1, 2)]
    nodes = [{"name": f"n{i}", "online": pick.random() < 0.8, "capacity": {r: pick.randint(4, 12) for r in resources}}
             for i in range(pick.randint(2, 4))]
    machines = [differential.machine(pick, i, nodes, resources) for i in range(pick.randint(2, 6))]
    names = [it["name"] for it in machines]
    made = {"horizon": pick.randint(3, 12), "resources": resources, "nodes": nodes, "machines": machines, "constraints": [],
            "durations": {"migrate": {"base": 1, "per": 1, "resource": resources[0]}, "boot": {"base": pick.randint(1, 3)}}}
    for _ in range(pick.randint(1, 4)):
        c = differential.constraint(pick, pick.choice(differential.KINDS), names, [n["name"] for n in nodes], resources)
        if c:
            made["constraints"].append(c)
    return made


def some_plan(pick, p, tries=60):
    """A random plan, a valid one if one is met, and whether it is; none where an element has no choice."""
    sets = [p.machine_choices(m) for m in p.machines] + [p.node_choices(n) for n in p.nodes]
    if not all(sets):
        return None, False
    made, count = None, len(p.machines)
    for _ in range(tries):
        made = [pick.choice(it if pick.random() < 0.7 else it[:1]) for it in sets]
        if plain.is_valid(p, made[:count], made[count:]):
            return made, True
    return made, False


def spoilt(pick, names):
    word, name = pick.choice(("start", "end", "fail")), pick.choice(names)
    return pick.choice((f"{word} {name}", f"{word} {name}", f"{word} {name}", f"{word}  {name}", f"{word} {name} ", word, "",
                        f"{word} {name}\r", f"{word} v9", f"stop {name}", f"{word} -{name}", f"{word} {'v' * 65}",
                        f"{word} {'v' * MOST_LINE}")).encode()


def some_events(pick, execution):
    """Lines of a random execution up to some moment, a few of them spoilt."""
    lines = []
    while pick.random() < 0.93:
        if pick.random() < 0.03:
            lines.append(spoilt(pick, execution.names))
            continue
        steps = [f"start {it}" for it in execution.actions if execution.may_start(it)]
        steps += [f"{pick.choice(('end', 'end', 'end', 'fail'))} {it}" for it in execution.running()]
        if not steps:
            break
        lines.append(pick.choice(steps).encode())
        execution.take(lines[-1])
    if pick.random() < 0.8:
        lines += [f"{pick.choice(('end', 'fail'))} {it}".encode() for it in execution.running()]
    text = b"".join(it + b"\n" for it in lines)
    return text[:-1] if pick.random() < 0.02 else text


# ---- runs of the program

class Bench:
    """The program, and a folder for its files."""

    def __init__(self, program, room):
        self.program = program
        self.given, self.plan, *self.after = (os.path.join(room, it) for it in ("given", "plan", "instance_left", "plan_left"))
        self.scratch = [os.path.join(room, it) for it in ("p", "c")]

    def run(self, words, events=b""):
        done = subprocess.run([self.program, *words], input=events, capture_output=True, check=False)
        return done.stdout.decode().rstrip("\n"), done.returncode

    def repair(self, instance, plan, events):
        """The line, the status and the two files."""
        for file in self.after:
            with open(file, "wb") as it:
                it.write(OLD)
        said = self.run(["repair", instance, plan, *self.after], events)
        found = []
        for file in self.after:
            with open(file, "rb") as it:
                found.append(it.read())
        return *said, found

    def fault_of_left(self, cost, is_planned):
        """What is wrong with what is left, if anything is."""
        if self.run(["replay", *self.after])[0].split("\n")[-1] != f"valid {cost}":
            return "what is left is not valid"
        if is_planned:
            words = self.run(["plan", self.after[0], *self.scratch])[0].split()
            if words[0] != "optimal" or int(words[1]) > int(cost):
                return "what is left is not planned"
        return None

    def fault_of_row(self, row):
        plan, events, line, status, hosts, actions = row
        files = [OLD, OLD]
        if hosts:
            with open(INSTANCE, encoding="utf-8") as it:
                given = json.load(it)
            for machine, host in zip(given["machines"], hosts):
                machine["node"] = host
            files = [printed(given), compact({"actions": actions})]
        found = self.repair(INSTANCE, plan, events.encode())
        if found != (line, status, files):
            return str(found)
        return self.fault_of_left(line.split()[1], True) if hosts else None

    def fault_of_execution(self, seed, counts):
        """What is wrong with a random execution, if anything is; counts what the answers begin with."""
        pick = random.Random(seed)
        given = instance(pick)
        p = plain.Instance(given)
        choices, is_valid = some_plan(pick, p)
        if choices is None:
            return None
        events = some_events(pick, Execution(p, choices))
        execution = Execution(p, choices)
        for file, value in ((self.given, given), (self.plan, listed(execution.actions.items()))):
            with open(file, "w", encoding="utf-8") as it:
                json.dump(value, it)
        wanted = execution.wanted(given, events)
        if not is_valid:
            verdict = self.run(["replay", self.given, self.plan])[0].split("\n")[-1]
            wanted = (verdict, 1, [OLD, OLD])
        found = self.repair(self.given, self.plan, events)
        if found != wanted or not is_valid and not found[0].startswith("broken "):
            plan = json.dumps(listed(execution.actions.items()))
            return f"{json.dumps(given)}\n{plan}\n{events[:500]}\n{found}\nwanted {wanted}"
        words = found[0].split()
        counts[" ".join(words[3:]) if words[0] == "input" else words[0]] += 1
        return self.fault_of_left(words[1], seed % 10 == 0) if words[0] == "repaired" else None


def main():
    asked = argparse.ArgumentParser(description="Compares what repair leaves with what is wanted.")
    asked.add_argument("--program", default=PROGRAM)
    asked.add_argument("count", type=int, nargs="?", default=3_000, help="random executions")
    asked.add_argument("seed", type=int, nargs="?", default=1, help="the first seed")
    asked = asked.parse_args()
    counts = collections.Counter()
    with tempfile.TemporaryDirectory() as room:
        bench = Bench(asked.program, room)
        for row in ROWS:
            fault = bench.fault_of_row(row)
            if fault:
                print(f"{row}: {fault}")
                return 1
        seed = asked.seed
        while sum(counts.values()) < asked.count:
            fault = bench.fault_of_execution(seed, counts)
            if fault:
                print(f"seed {seed}: {fault}")
                return 1
            seed += 1
    print(f"{len(ROWS)} rows and {asked.count} executions, no difference: {json.dumps(counts, sort_keys=True)}")
    return 0


if __name__ == "__main__":
    sys.exit(main())
