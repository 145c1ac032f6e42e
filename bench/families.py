#!/usr/bin/env python3
"""Plans families of instances, checks the certificates, and prints a table of what it took.

    bench/families.py [--strict] [--limit SECONDS] [--program PROGRAM] [--beside PROGRAM] [WORD..]

Planned are the instances whose names begin with a WORD, or all. Each row is an instance with its sizes and seed; `ties` says
that all machines are alike. It says the answer, the decisions and the cuts of the certificate and its bytes, the processor
seconds (user and system) of `plan` and of `check`, with `--strict` also of a strict check, and the peak of the resident memory
of `plan`. With another program beside that takes the words `plan INSTANCE PLAN CERTIFICATE` it says also what that one answers
where that differs, its seconds, and how many times as many ours took. All numbers of an instance come from
`random.Random(seed)`. The program is built first where that is due, if none is named. A call that takes more processor
seconds than the limit, 600 without one, is given up.
"""
import argparse
import json
import os
import random
import resource
import signal
import subprocess
import sys
import tempfile

TOP = os.path.dirname(os.path.dirname(os.path.realpath(__file__)))
PROGRAM = os.path.join(TOP, "crates", "btrplan", "out", "btrplan")
LIMIT = 600
RESOURCES = ("cpu", "mem")
MOVES = {"migrate": {"base": 2, "per": 1, "resource": "mem"}, "node_boot": {"base": 4}, "node_shutdown": {"base": 2}}


def instance(horizon, nodes, machines, constraints, durations=None):
    return {"horizon": horizon, "resources": list(RESOURCES), "durations": durations or MOVES, "nodes": nodes,
            "machines": machines, "constraints": constraints}


def node(number, cpu, mem, online=True):
    return {"name": f"n{number}", "online": online, "capacity": {"cpu": cpu, "mem": mem}}


def machine(number, host, cpu, mem):
    return {"name": f"v{number}", "state": "running", "node": f"n{host}", "use": {"cpu": cpu, "mem": mem}}


def spread_out(pick, nodes, machines, ties=""):
    """Uses of machines, a host for each, the one with the least load of cpu, and the loads."""
    uses = [(2, 4) if ties else (pick.randint(1, 4), pick.randint(1, 8)) for _ in range(machines)]
    loads, hosts = [[0, 0] for _ in range(nodes)], [0] * machines
    for v in range(machines):
        hosts[v] = min(range(nodes), key=lambda n: loads[n][0])
        loads[hosts[v]] = [a + b for a, b in zip(loads[hosts[v]], uses[v])]
    return uses, hosts, loads


def offline(nodes):
    return {"kind": "offline", "nodes": [f"n{n}" for n in nodes]}


def online(nodes):
    return {"kind": "online", "nodes": [f"n{n}" for n in nodes]}


def evacuate(nodes, machines, seed, percent=70, off=1, ties=""):
    """The first nodes are emptied; the others are so full of cpu afterwards, on average, and less of mem."""
    pick = random.Random(seed)
    uses, hosts, loads = spread_out(pick, nodes, machines, ties)
    sizes = [max(max(load[r] for load in loads), -(-100 * sum(u[r] for u in uses) // (part * (nodes - off))))
             for r, part in ((0, percent), (1, min(percent, 70)))]
    constraints = [offline(range(off)), online(range(off, nodes))]
    by_host = [[v for v in range(machines) if hosts[v] == n] for n in range(nodes)]
    for _ in range(machines // 20):
        apart = [pick.choice(by_host[n]) for n in pick.sample(range(nodes), min(4, nodes)) if by_host[n]]
        constraints.append({"kind": "spread", "machines": [f"v{v}" for v in apart], "continuous": True})
    away = [v for v in range(machines) if hosts[v] != nodes - 1]
    banned = pick.sample(away, min(10, len(away)))
    constraints.append({"kind": "ban", "machines": [f"v{v}" for v in banned], "nodes": [f"n{nodes - 1}"]})
    few = range(nodes // 4, nodes // 2)
    constraints.append({"kind": "runningCapacity", "nodes": [f"n{n}" for n in few], "continuous": True,
                        "amount": sum(len(by_host[n]) for n in few) + machines // nodes})
    return instance(60, [node(n, *sizes) for n in range(nodes)],
                    [machine(v, hosts[v], *uses[v]) for v in range(machines)], constraints)


def chain(length, seed):
    """Each machine fills its node, and is to be on the next one; the last node is free."""
    pick = random.Random(seed)
    mems = [pick.randint(1, 4) for _ in range(length)]
    fences = [{"kind": "fence", "machines": [f"v{v}"], "nodes": [f"n{v + 1}"]} for v in range(length)]
    return instance(8 * length, [node(n, 8, 8) for n in range(length + 1)],
                    [machine(v, v, 5, mems[v]) for v in range(length)], [online(range(length + 1)), *fences])


def cycles(count, length, seed):
    """Cycles of machines, each to be on the next node of its cycle; the first node of each cycle has room for two."""
    pick, fences, machines, nodes = random.Random(seed), [], [], []
    for c in range(count):
        for i in range(length):
            v = c * length + i
            nodes.append(node(v, 8, 16) if i else node(v, 16, 16))
            machines.append(machine(v, v, 5, pick.randint(1, 4)))
            fences.append({"kind": "fence", "machines": [f"v{v}"], "nodes": [f"n{c * length + (i + 1) % length}"]})
    return instance(8 * length, nodes, machines, [online(range(count * length)), *fences])


def free_cycles(count, length, seed, ties=""):
    """Each machine fills its node and must leave it, for any other; there is one free node."""
    pick, bans = random.Random(seed), []
    total = count * length
    mems = [2 if ties else pick.randint(1, 4) for _ in range(total)]
    for v in range(total):
        bans.append({"kind": "ban", "machines": [f"v{v}"], "nodes": [f"n{v}"]})
    return instance(8 * total, [node(n, 8, 8) for n in range(total + 1)],
                    [machine(v, v, 5, mems[v]) for v in range(total)], [online(range(total + 1)), *bans])


def wake(nodes, machines, seed, dark=4, ties=""):
    """Some machines may be on no node that is online, so dark nodes must boot, as few as hold them."""
    pick = random.Random(seed)
    uses, hosts, loads = spread_out(pick, nodes - dark, machines, ties)
    sizes = [max(load[r] for load in loads) + 8 for r in (0, 1)]
    moved, room = [], [2 * size - 8 for size in sizes]
    for v in pick.sample(range(machines), machines):
        left = [a - b for a, b in zip(room, uses[v])]
        if min(left) < max(sizes) // 2:
            break
        moved.append(v)
        room = left
    bans = [{"kind": "ban", "machines": [f"v{v}" for v in moved], "nodes": [f"n{n}" for n in range(nodes - dark)]}]
    return instance(80, [node(n, *sizes, online=n < nodes - dark) for n in range(nodes)],
                    [machine(v, hosts[v], *uses[v]) for v in range(machines)], [online(range(nodes - dark)), *bans])


def contradiction(nodes, machines, seed):
    """Seven machines, each of more than half a node, are fenced to six nodes."""
    pick = random.Random(seed)
    uses, hosts, loads = spread_out(pick, nodes, machines)
    sizes = [2 * max(load[r] for load in loads) + 8 for r in (0, 1)]
    big = {}
    for n in range(7):
        big[next(v for v in range(machines) if hosts[v] == n)] = (sizes[0] // 2 + 1, 8)
    fence = {"kind": "fence", "machines": [f"v{v}" for v in big], "nodes": [f"n{n}" for n in range(nodes - 6, nodes)]}
    return instance(60, [node(n, *sizes) for n in range(nodes)],
                    [machine(v, hosts[v], *big.get(v, uses[v])) for v in range(machines)],
                    [online(range(nodes)), fence])


def swap(horizon):
    """Two machines that fill their nodes are each to be on the other's: no plan is valid, and there is much time."""
    fences = [{"kind": "fence", "machines": [f"v{v}"], "nodes": [f"n{1 - v}"]} for v in (0, 1)]
    return instance(horizon, [node(n, 8, 8) for n in (0, 1)], [machine(v, v, 5, 8) for v in (0, 1)],
                    [online((0, 1)), *fences])


def spread(count):
    """As many machines as nodes are kept apart, and one node is to go."""
    apart = {"kind": "spread", "machines": [f"v{v}" for v in range(count)], "continuous": True}
    return instance(60, [node(n, 8, 8) for n in range(count)], [machine(v, v, 1, 1) for v in range(count)],
                    [offline([0]), online(range(1, count)), apart])


def split(nodes, machines, seed):
    """Two halves of the machines are kept on different nodes, and a node of the first half is emptied."""
    pick = random.Random(seed)
    half = machines // 2
    hosts = [v % (nodes // 2) if v < half else nodes // 2 + v % (nodes // 2) for v in range(machines)]
    parts = [[f"v{v}" for v in range(half)], [f"v{v}" for v in range(half, machines)]]
    size = 12 * machines // nodes
    return instance(60, [node(n, size, size) for n in range(nodes)],
                    [machine(v, hosts[v], pick.randint(1, 8), pick.randint(1, 8)) for v in range(machines)],
                    [offline([0]), online(range(1, nodes)), {"kind": "split", "parts": parts, "continuous": True}])


def mixed(given, seed):
    """The same with other constraints beside: spreads of four, a ban of half of the nodes for some of those that leave, and an
    amount of half of the nodes that is all used."""
    pick = random.Random(seed)
    hosts = {it["name"]: it["node"] for it in given["machines"]}
    gone = {n for it in given["constraints"] if it["kind"] in ("offline", "ban") for n in it["nodes"]}
    nodes = [it["name"] for it in given["nodes"]]
    stay = [n for n in nodes if n not in gone]
    stay = stay if 2 * len(stay) >= len(nodes) else nodes
    leaving = sorted(v for it in given["constraints"] if it["kind"] == "ban" for v in it["machines"])
    leaving = [v for v in hosts if hosts[v] in gone and (not leaving or v in leaving)] or leaving
    for _ in range(max(1, len(hosts) // 20)):
        four = pick.sample(sorted(hosts), 4)
        apart = len({hosts[v] for v in four}) == 4
        given["constraints"].append({"kind": "spread", "machines": four, "continuous": apart})
    given["constraints"].append({"kind": "ban", "machines": pick.sample(leaving, max(1, len(leaving) // 3)),
                                 "nodes": sorted(pick.sample(stay, len(stay) // 2))})
    some = set(pick.sample(stay, len(stay) // 2))
    amount = sum(it["use"]["cpu"] for it in given["machines"] if it["node"] in some)
    given["constraints"].append({"kind": "resourceCapacity", "nodes": sorted(some), "resource": "cpu", "amount": amount,
                                 "continuous": True})
    return given


def mixed_evacuate(nodes, machines, seed, percent, off=1, ties=""):
    return mixed(evacuate(nodes, machines, seed, percent, off, ties), seed)


def mixed_wake(nodes, machines, seed, dark=4, ties=""):
    return mixed(wake(nodes, machines, seed, dark, ties), seed)


def mixed_free_cycles(count, length, seed, ties=""):
    return mixed(free_cycles(count, length, seed, ties), seed)


ROWS = [
    (evacuate, 10, 40, 1), (evacuate, 40, 200, 1), (evacuate, 100, 600, 1), (evacuate, 512, 4096, 1),
    (evacuate, 10, 40, 1, 98), (evacuate, 20, 100, 1, 98), (evacuate, 20, 100, 2, 98), (evacuate, 512, 4096, 1, 98),
    (chain, 16, 1), (chain, 64, 1), (cycles, 16, 8, 1), (free_cycles, 2, 3, 1), (free_cycles, 2, 4, 1),
    (wake, 6, 20, 1), (wake, 20, 100, 1), (wake, 64, 400, 1),
    (contradiction, 10, 50, 1), (contradiction, 40, 200, 1), (contradiction, 512, 4096, 1),
    (swap, 1_000), (swap, 1_000_000), (spread, 64), (spread, 512), (split, 40, 200, 1), (split, 512, 4096, 1),
    (evacuate, 20, 100, 1, 90, 1, "ties"), (wake, 20, 100, 1, 4, "ties"), (free_cycles, 2, 3, 1, "ties"),
    (mixed_evacuate, 20, 100, 1, 90), (mixed_evacuate, 20, 100, 1, 90, 1, "ties"), (mixed_evacuate, 20, 100, 2, 98),
    (mixed_evacuate, 40, 200, 1, 95), (mixed_evacuate, 40, 200, 1, 90, 1, "ties"), (mixed_evacuate, 100, 600, 1, 70),
    (mixed_wake, 20, 100, 1), (mixed_wake, 20, 100, 1, 4, "ties"), (mixed_wake, 40, 200, 1),
    (mixed_free_cycles, 2, 3, 1), (mixed_free_cycles, 2, 3, 1, "ties"), (mixed_free_cycles, 2, 4, 2),
    (mixed_free_cycles, 2, 4, 2, "ties"),
]
TITLES = ["instance", "answer", "decisions", "cuts", "bytes", "plan s", "check s", "strict s", "MB"]
TITLES_BESIDE = ["the other", "s", "ratio"]


def seconds(words, limit):
    """Runs a program: its last line, and processor seconds."""
    before = resource.getrusage(resource.RUSAGE_CHILDREN)
    ran = subprocess.run(words, capture_output=True, text=True,
                         preexec_fn=lambda: resource.setrlimit(resource.RLIMIT_CPU, (limit, limit + 10)))
    after = resource.getrusage(resource.RUSAGE_CHILDREN)
    line = (ran.stdout.strip().splitlines() or [f"status {ran.returncode}"])[-1]
    took = after.ru_utime + after.ru_stime - before.ru_utime - before.ru_stime
    return "given up" if ran.returncode == -signal.SIGXCPU else line, took


def peak(words):
    """The megabytes that a program takes at most, run by a process of its own."""
    code = ("import resource, subprocess, sys; subprocess.run(sys.argv[1:], stdout=subprocess.DEVNULL); "
            "print(resource.getrusage(resource.RUSAGE_CHILDREN).ru_maxrss // 1024)")
    return subprocess.run([sys.executable, "-c", code, *words], capture_output=True, text=True).stdout.strip()


def counted(path):
    """The decisions, the cuts and the bytes of a certificate."""
    counts = {"decide": 0, "cut": 0}
    with open(path, encoding="ascii") as lines:
        for line in lines:
            word = line.split(" ", 1)[0]
            if word in counts:
                counts[word] += 1
    return counts["decide"], counts["cut"], os.path.getsize(path)


def beside(asked, paths, line, planned):
    """What the other program makes of an instance: its answer where that differs, its seconds, and the ratio."""
    others = [paths[0], f"{paths[1]}.other", f"{paths[2]}.other"]
    told, took = seconds([asked.beside, "plan", *others], asked.limit)
    return ["" if told == line else told, f"{took:.3f}", f"{planned / max(took, 0.001):.1f}"]


def measured(room, given, asked):
    """The cells of an instance."""
    paths = [os.path.join(room, it) for it in ("instance.json", "plan.json", "certificate.txt")]
    with open(paths[0], "w", encoding="utf-8") as it:
        json.dump(given, it)
    line, planned = seconds([asked.program, "plan", *paths], asked.limit)
    other = beside(asked, paths, line, planned) if asked.beside else []
    if line == "given up":
        return [line, "", "", "", f"{planned:.3f}", "", "", "", *other]
    verdict, checked = seconds([asked.program, "check", *paths], asked.limit)
    strict = ""
    if asked.strict:
        told, took = seconds([asked.program, "check", *paths, "strict"], asked.limit)
        strict = f"{took:.2f}" if told.startswith("yes") else told
    if not verdict.startswith("yes"):
        line = f"{line}, but check: {verdict}"
    decides, cuts, size = counted(paths[2])
    return [line, f"{decides:,}", f"{cuts:,}", f"{size:,}", f"{planned:.3f}", f"{checked:.3f}", strict,
            peak([asked.program, "plan", *paths]), *other]


def words_of(about, limit):
    """The words of the command line that this bench and `bench/policies.py` share."""
    asked = argparse.ArgumentParser(description=about)
    asked.add_argument("--strict", action="store_true", help="check each certificate strictly too")
    asked.add_argument("--limit", type=int, default=limit, help="processor seconds after which a call is given up")
    asked.add_argument("--program", default=PROGRAM, help="the program, if not the one that the gate builds")
    asked.add_argument("--beside", help="another program")
    asked.add_argument("words", nargs="*", help="how the names of the instances begin that are planned")
    return asked


def print_table(rows, asked):
    """A line for each of these instances, of which each is a name, a function and its arguments."""
    if asked.program == PROGRAM:
        subprocess.run([os.path.join(TOP, "btrplan")], stdout=subprocess.DEVNULL, check=False)
    titles = [*TITLES, *(TITLES_BESIDE if asked.beside else [])]
    print(f"| {' | '.join(titles)} |\n|{'---|' * len(titles)}", flush=True)
    with tempfile.TemporaryDirectory() as room:
        for name, make, sizes in rows:
            if not asked.words or any(name.startswith(it) for it in asked.words):
                print(f"| {name} | {' | '.join(measured(room, make(*sizes), asked))} |", flush=True)


def main():
    asked = words_of("Plans families of instances, and prints a table of what it took.", LIMIT).parse_args()
    rows = ((" ".join([make.__name__.replace("_", "-"), *map(str, sizes)]), make, sizes) for make, *sizes in ROWS)
    print_table(rows, asked)
    return 0


if __name__ == "__main__":
    sys.exit(main())
