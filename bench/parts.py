#!/usr/bin/env python3
"""Splits random tiny instances along groups of nodes, and compares what `parts`, `checkparts` and `cut` say with a planner that
goes over all plans of the whole.

    bench/parts.py [--program PROGRAM] [--fleet] [COUNT [SEED]]     so many instances (1,000), from this seed on (1)

Where the groups do not split an instance, the first fault is told by a plain model of its own. Where they do, the cost of the
union is that of the cheapest plan of the whole, `checkparts` says yes, and no longer where a section is gone, twice or out of
order; each part that is cut out has the plan and the certificate that stand in the union. With --fleet an instance of 512
nodes in 8 groups is planned by `parts` and by bench/fleet, with one job and with as many as there are processors. The first
difference is printed, and ends with status 1.
"""
import argparse
import json
import os
import random
import re
import subprocess
import sys
import tempfile
import time

import differential
import families
import plain_planner as plain

TOP = os.path.dirname(os.path.dirname(os.path.realpath(__file__)))
PROGRAM = os.path.join(TOP, "crates", "btrplan", "out", "btrplan")
MOST_PLANS = 3_000
BUDGETS = (100_000, 0, 2)
JOINT = ("spread", "gather", "lonely", "among", "split", "resourceCapacity", "runningCapacity", "maxOnline", "precedence",
         "serialize")


# ---- a plain model of how groups split an instance

def named_in(c):
    """The machines that a constraint names, and its nodes."""
    machines = c.get("machines", []) + [v for part in c.get("parts", []) for v in part]
    machines += [c[key] for key in ("before", "after") if key in c]
    return machines, c.get("nodes", []) + [n for group in c.get("groups", []) for n in group]


class Split:
    """The group of each node and machine, and why the groups do not split the instance."""

    def __init__(self, given, groups):
        self.given, self.groups = given, groups
        self.p = plain.Instance(given)
        self.node_group = {n: i for i, group in enumerate(groups) for n in group}
        self.machine_group = {m["name"]: self.group_of(m) for m in given["machines"]}

    def is_to_run(self, m):
        wishes = self.p.wishes(m["name"])
        return wishes == {"running"} or not wishes and m["state"] == "running"

    def fences(self, m):
        return [c["nodes"] for c in self.given["constraints"] if c["kind"] == "fence" and m["name"] in c["machines"]]

    def group_of(self, m):
        if "node" in m:
            return self.node_group.get(m["node"], 0)
        if self.is_to_run(m):
            for nodes in self.fences(m):
                found = {self.node_group.get(n) for n in nodes}
                if len(found) == 1:
                    return found.pop()
        return 0

    def is_free(self, m):
        group = self.machine_group[m["name"]]
        is_fenced = any({self.node_group.get(n) for n in nodes} <= {group} for nodes in self.fences(m))
        is_rooted = m["state"] == "running" and any(
            c["kind"] == "root" and m["name"] in c["machines"] for c in self.given["constraints"])
        return self.is_to_run(m) and not is_fenced and not is_rooted

    def spans(self, c):
        machines, nodes = named_in(c)
        found = {self.machine_group[v] for v in machines} | {self.node_group[n] for n in nodes}
        return c["kind"] in JOINT and len(found) > 1

    def fault(self):
        for n in self.given["nodes"]:
            if n["name"] not in self.node_group:
                return f"input groups node {n['name']} uncovered"
        if len(self.groups) > 1:
            for m in self.given["machines"]:
                if self.is_free(m):
                    return f"input groups machine {m['name']} free"
        for number, c in enumerate(self.given["constraints"]):
            if self.spans(c):
                return f"input groups constraint {number} spans"
        return None


# ---- random instances with groups

def renamed(value, names):
    if isinstance(value, dict):
        return {key: renamed(item, names) for key, item in value.items()}
    if isinstance(value, list):
        return [renamed(item, names) for item in value]
    return names.get(value, value) if isinstance(value, str) else value


def joined(pick):
    """Two tiny instances as one whose parts they are, for the most part, with their groups."""
    one, other = differential.instance(pick), differential.instance(pick)
    made = {**one, "horizon": min(one["horizon"], other["horizon"], 3)}
    names = {m["name"]: f"w{i}" for i, m in enumerate(other["machines"])}
    names |= {n["name"]: f"m{i}" for i, n in enumerate(other["nodes"])}
    other = renamed(other, names)
    if other["resources"] != one["resources"]:
        return None
    groups = [[n["name"] for n in it["nodes"]] for it in (one, other)]
    for key in ("nodes", "machines", "constraints"):
        made[key] = one[key] + other[key]
    for it, group in zip((one, other), groups):
        loose = [m["name"] for m in it["machines"] if pick.random() < 0.97]
        if loose:
            made["constraints"].append({"kind": "fence", "machines": loose, "nodes": group, "continuous": pick.random() < 0.5})
    pick.shuffle(made["constraints"])
    if pick.random() < 0.1:
        groups.append([])
    if pick.random() < 0.05:
        groups[0] = groups[0][1:]
    pick.shuffle(groups)
    return made, groups


def one_or_many(pick):
    """An instance with any groups of its nodes."""
    made = differential.instance(pick)
    groups = [[] for _ in range(pick.randint(1, 3))]
    for n in made["nodes"]:
        pick.choice(groups).append(n["name"])
    return made, groups


def case(pick):
    return joined(pick) if pick.random() < 0.7 else one_or_many(pick)


# ---- what the program says

class Room:
    """A folder with the files of one instance."""

    def __init__(self, program, folder):
        self.program, self.folder = program, folder

    def path(self, name):
        return os.path.join(self.folder, name)

    def call(self, *words):
        return subprocess.run([self.program, *words], capture_output=True, text=True, timeout=600).stdout.strip()

    def write(self, name, value):
        with open(self.path(name), "w", encoding="utf-8") as it:
            it.write(value if isinstance(value, str) else json.dumps(value))

    def text(self, name):
        with open(self.path(name), encoding="utf-8") as it:
            return it.read()

    def files(self):
        return [self.path(name) for name in ("instance", "groups", "plan", "certificate")]


def sections_of(certificate):
    """The number and the text of each section."""
    found = re.split(r"^part (\d+)\n", certificate, flags=re.MULTILINE)
    return [(int(number), body) for number, body in zip(found[1::2], found[2::2])]


def text_of(sections):
    return "".join(f"part {number}\n{body}" for number, body in sections)


def wrong_answer(p, best, budget, line, plan):
    cost = None if plan is None else plain.cost_of_file(p, plan)
    if plan is not None and cost is None:
        return "the union is not valid"
    words = line.split()
    if words == ["infeasible"]:
        return None if best is None and plan is None else f"a plan of cost {best} is valid"
    if words[:1] == ["optimal"]:
        return None if int(words[1]) == best == cost else f"the cheapest plan costs {best}"
    if budget < 100_000 and words == ["undecided"] and plan is None:
        return None
    if budget < 100_000 and words[:2] == ["undecided", "best"] and int(words[2]) == cost and cost >= best:
        return None
    return f"the cheapest plan costs {best}"


def wrong_verdicts(room, line, sections, count):
    """What `checkparts` should not say of the certificate, or of one that is changed."""
    wanted = "yes undecided" if line.startswith("undecided") else f"yes {line}"
    said = room.call("checkparts", *room.files())
    if said != wanted:
        return f"checkparts says: {said}"
    changed = [(sections[1:], "no sections"), (sections + sections[-1:], "no sections"),
               ([(count, sections[0][1])] + sections[1:], "no sections")]
    if len(sections) > 1:
        changed.append((sections[::-1], "no sections"))
    changed.append(([(number, "") for number, _ in sections], f"input certificate {sections[0][0]} short"))
    for other, wanted in changed:
        room.write("certificate", text_of(other))
        said = room.call("checkparts", *room.files())
        if said != wanted:
            return f"checkparts says of changed sections: {said}, not {wanted}"
    room.write("certificate", " " + text_of(sections))
    said = room.call("checkparts", *room.files())
    return None if said == "no sections" else f"checkparts says after a blank: {said}"


def wrong_parts(room, budget, sections, plan, count):
    """What is wrong with a part that is cut out and planned by itself."""
    actions = []
    for number, body in sections:
        said = room.call("cut", *room.files()[:2], str(number), room.path("part"))
        if said != f"cut {number} of {count}":
            return f"cut says: {said}"
        room.call("plan", room.path("part"), room.path("part_plan"), room.path("part_cert"), "budget", str(budget))
        if room.text("part_cert") != body:
            return f"part {number} has another certificate by itself"
        found = json.loads(room.text("part_plan"))
        actions += found["actions"] if found else []
    if plan is not None and sorted(map(str, actions)) != sorted(map(str, plan["actions"])):
        return "the plan is not the union of the plans of its parts"
    said = room.call("cut", *room.files()[:2], str(count), room.path("part"))
    return None if said == "input part out of range" else f"cut says past the end: {said}"


def difference(room, given, groups):
    """How the program's answers differ from what they should be, or None, and the word of the answer."""
    room.write("instance", given)
    room.write("groups", {"groups": groups})
    fault = Split(given, groups).fault()
    best = None if fault else plain.least_cost(plain.Instance(given))
    for budget in BUDGETS:
        line = room.call("parts", *room.files(), "budget", str(budget))
        if fault:
            others = [room.call("checkparts", *room.files()), room.call("cut", *room.files()[:2], "0", room.path("part"))]
            return (None if {line, *others} == {fault} else f"{[line, *others]}, not {fault}"), fault.split()[-1]
        plan = json.loads(room.text("plan"))
        found = wrong_answer(plain.Instance(given), best, budget, line, plan)
        sections = sections_of(room.text("certificate"))
        found = found or wrong_parts(room, budget, sections, plan, len(groups)) or wrong_verdicts(room, line, sections, len(groups))
        if found:
            return f"budget {budget}: {line}: {found}", None
        if budget == BUDGETS[0]:
            word = line.split()[0]
    return None, word


# ---- an instance of 512 nodes in 8 groups

def large(nodes, machines, count):
    """Machines on nodes in groups, each fenced to its own, of which a tenth of the nodes go offline."""
    pick = random.Random(1)
    each = nodes // count
    groups = [[f"n{n}" for n in range(i * each, (i + 1) * each)] for i in range(count)]
    hosts = [v * nodes // machines for v in range(machines)]
    vms = [families.machine(v, hosts[v], pick.randint(1, 4), pick.randint(1, 8)) for v in range(machines)]
    made = [families.node(n, 48, 96) for n in range(nodes)]
    off = sorted(pick.sample(range(nodes), nodes // 10))
    rules = [families.offline(off), families.online([n for n in range(nodes) if n not in off])]
    for i, group in enumerate(groups):
        members = [f"v{v}" for v in range(machines) if hosts[v] // each == i]
        rules.append({"kind": "fence", "machines": members, "nodes": group, "continuous": False})
    return families.instance(60, made, vms, rules), groups


def fleet(room, jobs):
    """The line of bench/fleet with so many jobs, and its seconds."""
    begin = time.monotonic()
    made = subprocess.run([os.path.join(TOP, "bench", "fleet"), *room.files()], capture_output=True, text=True, timeout=600,
                          env={**os.environ, "BTRPLAN": room.program, "JOBS": str(jobs)})
    return made.stdout.strip(), time.monotonic() - begin


def run_fleet(room):
    given, groups = large(512, 4096, 8)
    room.write("instance", given)
    room.write("groups", {"groups": groups})
    begin = time.monotonic()
    line = room.call("parts", *room.files())
    print(f"512 nodes, 4,096 machines, 8 groups: {line}, parts {time.monotonic() - begin:.1f} s", end="")
    for jobs in (1, os.cpu_count()):
        said, seconds = fleet(room, jobs)
        if said != f"yes {line}":
            print(f"\nbench/fleet with {jobs} jobs says: {said}")
            return 1
        print(f", bench/fleet with {jobs} {'job' if jobs == 1 else 'jobs'} {seconds:.1f} s", end="")
    print()
    return 0


def main():
    asked = argparse.ArgumentParser(description="Compares parts of instances with a planner of the whole.")
    asked.add_argument("--program", default=PROGRAM)
    asked.add_argument("--fleet", action="store_true")
    asked.add_argument("count", type=int, nargs="?", default=1_000, help="instances")
    asked.add_argument("seed", type=int, nargs="?", default=1, help="the first seed")
    asked = asked.parse_args()
    seed, answers, done = asked.seed, {}, 0
    with tempfile.TemporaryDirectory() as folder:
        room = Room(asked.program, folder)
        while done < asked.count:
            made = case(random.Random(seed))
            seed += 1
            if made is None or plain.plan_count(plain.Instance(made[0])) > MOST_PLANS:
                continue
            found, word = difference(room, *made)
            if found:
                print(f"seed {seed - 1}: {found}\n{json.dumps(made[0])}\n{json.dumps(made[1])}")
                return 1
            answers[word] = answers.get(word, 0) + 1
            done += 1
        print(f"{done} instances with groups, {len(BUDGETS)} budgets each, no difference: {json.dumps(answers, sort_keys=True)}")
        return run_fleet(room) if asked.fleet else 0


if __name__ == "__main__":
    sys.exit(main())
