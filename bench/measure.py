#!/usr/bin/env python3
"""Times the built program, and prints how much memory it takes at most.

    bench/measure.py [WORD..]     the measurements whose names begin with a WORD, or all

It writes instances of growing size, and plans and certificates for some of them, into a temporary folder, plans,
replays, executes or checks each, generates one, and prints a line: the measurement, the bytes of the instance (or of the
certificate, where one is checked; they have a million lines), the status, the seconds,
those of the processor (user and system), the megabytes in a second of the processor, the peak of the
resident memory, and the last line that the program printed. Nothing is compared with a wanted time.
The program is built first where that is due.
"""
import json
import os
import random
import subprocess
import sys
import tempfile
import time

TOP = os.path.dirname(os.path.dirname(os.path.realpath(__file__)))
PROGRAM = os.path.join(TOP, "crates", "btrplan", "out", "btrplan")
MIB = 1 << 20
MOST = 64 * MIB  # the most bytes of an instance
EMPTY = '{"horizon":5,"resources":[],"nodes":[],"machines":[],"constraints":[]}'

# Each of these makes the pieces of an instance's text. They are written one by one, since the memory of
# this process would count in the peak of those that it starts.


def joined(items):
    for number, item in enumerate(items):
        yield ("," if number else "") + item


def instance(nodes, machines, constraints, members):
    """Machines spread over nodes, and spreads of so many of them each."""
    pick = random.Random(1)
    yield '{"horizon":1000,"resources":["cpu","mem"],"nodes":['
    yield from joined(f'{{"name":"node-{n}","capacity":{{"cpu":1000,"mem":4000}}}}' for n in range(nodes))
    yield '],"machines":['
    yield from joined(
        f'{{"name":"vm-{v}","state":"running","node":"node-{v % nodes}","use":{{"cpu":{1 + v % 4},"mem":{1 + v % 8}}}}}'
        for v in range(machines))
    yield '],"constraints":['
    for number in range(constraints):
        chosen = ",".join(f'"vm-{v}"' for v in sorted(pick.sample(range(machines), members)))
        yield ("," if number else "") + f'{{"kind":"spread","machines":[{chosen}]}}'
    yield "]}"


def blanks(size):
    """The empty instance behind blanks, so many bytes in all."""
    left = size - len(EMPTY)
    while left:
        piece = min(left, MIB)
        yield " " * piece
        left -= piece
    yield EMPTY


def zeros(size):
    """A list of zeros: no text of this length has more values."""
    left = (size - 3) // 2
    yield "["
    while left:
        piece = min(left, MIB)
        yield "0," * piece
        left -= piece
    yield "0]"


# The names with the most of each list: 512 nodes, 4,096 machines, 4,096 constraints.
def steady(nodes, machines, members):
    """An instance in which staying is valid: offline nodes, sleeping machines, every kind of constraint."""
    online = nodes - nodes // 64
    resources = [f"r{r}" for r in range(8)]
    up = [f"node-{n}" for n in range(online)]
    down = [f"node-{n}" for n in range(online, nodes)]
    listed = [{"name": n, "online": n in up, "capacity": dict.fromkeys(resources, 1_000_000)} for n in up + down]
    named = {"running": [], "sleeping": [], "ready": []}
    given, host = [], {}
    for v in range(machines):
        state = "sleeping" if v % 10 == 9 else "ready" if v % 50 == 8 else "running"
        machine = {"name": f"vm-{v}", "state": state, "use": dict.fromkeys(resources, 1 + v % 4)}
        if state != "ready":
            machine["node"] = host[machine["name"]] = up[v % online]
        named[state].append(machine["name"])
        given.append(machine)
    rules = []

    def rule(kind, **fields):
        rules.append({"kind": kind, **fields})

    for first in range(300):
        apart = {host[v]: v for v in named["running"][first:first + members]}
        group, hosts = list(apart.values()), list(apart)
        rule("spread", machines=group, continuous=first % 2 == 0)
        rule("split", parts=[group[:5], group[5:]], continuous=True)
        rule("ban", machines=group, nodes=down, continuous=True)
        rule("fence", machines=group, nodes=hosts, continuous=True)
        rule("among", machines=group, groups=[down, up], continuous=True)
        rule("gather", machines=group[:1], continuous=True)
        rule("root", machines=group)
        rule("preserve", machines=group, resource="r0", amount=1)
        rule("resourceCapacity", nodes=hosts, resource="r1", amount=1_000_000, continuous=True)
        rule("runningCapacity", nodes=hosts, amount=machines, continuous=True)
        rule("maxOnline", nodes=up + down, amount=online, continuous=True)
        rule("overbook", nodes=hosts, resource="r0", num=3, den=2)
    rule("lonely", machines=[v for v in named["running"] if host[v] == up[3]], continuous=True)
    rule("online", nodes=up)
    rule("offline", nodes=down)
    for state, names in named.items():
        rule(state, machines=names)
    return {"horizon": 1_000_000, "resources": resources, "nodes": listed, "machines": given, "constraints": rules}


def stage(**change):
    """The steady instance with a change that stops the program after a stage."""
    yield json.dumps({**steady(512, 4096, 40), **change}, separators=(",", ":"))


def moves(count, members, step=200):
    """512 nodes, 4,096 machines that migrate, each so much later than the one before, and so many fences of so many of them."""
    resources = [f"r{r}" for r in range(8)]
    everywhere = [f"node-{n}" for n in range(512)]
    nodes = [{"name": n, "capacity": dict.fromkeys(resources, 1_000_000)} for n in everywhere]
    machines = [
        {"name": f"vm-{v}", "state": "running", "node": everywhere[v % 512], "use": dict.fromkeys(resources, 1 + v % 7)}
        for v in range(4096)]
    fences = [
        {"kind": "fence", "machines": [f"vm-{(c + v) % 4096}" for v in range(members)], "nodes": everywhere, "continuous": True}
        for c in range(count)]
    actions = [
        {"element": f"vm-{v}", "kind": "migrate", "place": everywhere[(v + 1) % 512], "start": v * step} for v in range(4096)]
    instance = {
        "horizon": 1_000_000, "resources": resources, "durations": {"migrate": {"base": 3}},
        "nodes": nodes, "machines": machines, "constraints": fences}
    return instance, {"actions": actions}


def forges(kind, nodes, step):
    """A constraint of 4,096 machines, of which 256 run on so many nodes and the others are forged, each so much later than the one before."""
    names = [f"vm-{v}" for v in range(4096)]
    running = [{"name": n, "state": "running", "node": f"node-{v % nodes}"} for v, n in enumerate(names[:256])]
    instance = {
        "horizon": 1_000_000, "resources": [], "durations": {"forge": {"base": 3}},
        "nodes": [{"name": f"node-{n}"} for n in range(512)],
        "machines": running + [{"name": n, "state": "init"} for n in names[256:]],
        "constraints": [{"kind": "ready", "machines": names[256:]}, {"kind": kind, "machines": names, "continuous": True}]}
    return instance, {"actions": [{"element": n, "kind": "forge", "start": v * step} for v, n in enumerate(names[256:])]}


# The plans that are replayed. Where starts are distinct, a report has some 8,000 lines, of 22 KB each for the moves; where all
# actions start at once, it has three or four lines.
PLANS = {
    "moves": lambda: moves(0, 0),
    "moves-100x100": lambda: moves(100, 100),
    "moves-100x1000": lambda: moves(100, 1000),
    "at-once": lambda: moves(0, 0, 0),
    "at-once-100x1000": lambda: moves(100, 1000, 0),
    "spread": lambda: forges("spread", 512, 200),
    "spread-at-once": lambda: forges("spread", 512, 0),
    "gather": lambda: forges("gather", 1, 200),
    "gather-at-once": lambda: forges("gather", 1, 0),
}

# The plans that are executed, each event line as soon as it may come. Where starts are distinct, each action waits for all
# before it; where all start at once, none waits.
EXECUTIONS = {
    "execute": lambda: moves(0, 0),
    "execute-at-once": lambda: moves(0, 0, 0),
}

# The most lines of cuts that a certificate below has, and the machines of the instance that it is of.
LINES = 1_000_000
RUNNING = 600


def crowd(nodes, duration, horizon):
    """600 machines that run on so many nodes, on which nothing else has room, each fenced to its own node at the end."""
    names = [f"node-{n}" for n in range(nodes)]
    machines = [
        {"name": f"vm-{v}", "state": "running", "node": names[v % nodes], "use": {"cpu": 1}} for v in range(RUNNING)]
    fences = [
        {"kind": "fence", "machines": [f"vm-{v}" for v in range(n, RUNNING, nodes)], "nodes": [name]}
        for n, name in enumerate(names)]
    return {
        "horizon": horizon, "resources": ["cpu"], "durations": {"migrate": {"base": duration}},
        "nodes": [{"name": n, "capacity": {"cpu": RUNNING // nodes}} for n in names], "machines": machines,
        "constraints": fences}


def cuts(nodes, starts, reason):
    """A certificate of 100 nodes and 600 machines: each machine is kept from each other node, start by start."""
    yield "btrplan certificate 1\n"
    left = LINES
    for v in range(RUNNING):
        for n in range(nodes):
            for start in range(0 if n == v % nodes else min(starts, left)):
                left -= 1
                yield f"cut vm-{v} upto node-{n} {start} {reason(v, n, start)}\n"
    yield "fail bound\nend optimal 0\n"


# The certificates that are checked, with their instances: by the places that are forbidden at the end, and by the loads of nodes
# that no machine has left yet.
CHECKS = {
    "check-places": lambda: (crowd(100, 3, 20), cuts(100, 17, lambda v, n, start: f"place {v % 100} 20 vm-{v} node-{n}")),
    "check-loads": lambda: (crowd(100, 20, 60), cuts(100, 17, lambda v, n, start: f"load {start} cpu node-{n}")),
}

MEASUREMENTS = {
    "names-1": lambda: instance(512, 4096, 4096, 20),
    "names-8": lambda: instance(512, 4096, 4096, 200),
    "names-32": lambda: instance(512, 4096, 4096, 800),
    "names-64": lambda: instance(512, 4096, 4096, 1660),
    "blanks-1": lambda: blanks(MIB),
    "blanks-64": lambda: blanks(MOST),
    "blanks-past": lambda: blanks(MOST + 1),
    "zeros-8": lambda: zeros(8 * MIB),
    "zeros-64": lambda: zeros(MOST),
    # The walk refuses the first value of all, then the last one, then nothing: what each takes longer than the
    # one before is the parse, the walk, and the judge.
    "steady-parse": lambda: stage(horizon=1_000_001),
    "steady-walk": lambda: stage(unnamed=0),
    "steady-judge": lambda: stage(),
}


def write(folder, name, pieces):
    """Writes a text into a file of the folder, and gives the file's name."""
    file = os.path.join(folder, name)
    with open(file, "w", encoding="ascii") as it:
        for piece in pieces:
            it.write(piece)
    return file


def last_line(stream):
    """Reads to the end, and keeps the last line alone."""
    last = b""
    while piece := stream.read(MIB):
        last = (last + piece)[-4096:]
    return last.decode().rstrip("\n").rpartition("\n")[2]


def run(command, instance_file, *others, before=(), events=subprocess.DEVNULL):
    """Runs a command, whose words before the instance may be given: the bytes of the instance, its status, seconds, what the system says that it used, its last line."""
    begun = time.monotonic()
    with subprocess.Popen([PROGRAM, command, *before, instance_file, *others], stdin=events, stdout=subprocess.PIPE) as ran:
        line = last_line(ran.stdout)
        _, status, usage = os.wait4(ran.pid, 0)
        seconds = time.monotonic() - begun
        ran.returncode = os.waitstatus_to_exitcode(status)
    return os.path.getsize(instance_file), ran.returncode, seconds, usage, line


def plan(folder, pieces):
    """Plans an instance."""
    instance_file = write(folder, "instance.json", pieces)
    return run("plan", instance_file, os.path.join(folder, "plan.json"), os.path.join(folder, "certificate.txt"))


def files_of(folder, parts):
    """Writes an instance and a plan of it."""
    return [
        write(folder, name, [json.dumps(part, separators=(",", ":"))])
        for name, part in zip(("instance.json", "plan.json"), parts)]


def replay(folder, parts):
    """Replays a plan."""
    return run("replay", *files_of(folder, parts))


def execute(folder, parts):
    """Executes a plan whose actions end in the order in which they are listed."""
    files = files_of(folder, parts)
    events = write(folder, "events", [f"end {action['element']}\n" for action in parts[1]["actions"]])
    with open(events, "rb") as lines:
        return run("execute", *files, events=lines)


def check(folder, parts):
    """Checks a certificate that staying costs least; the bytes are those of the certificate."""
    instance, certificate = parts
    files = files_of(folder, (instance, {"actions": []}))
    lines = write(folder, "certificate.txt", certificate)
    return os.path.getsize(lines), *run("check", *files, lines)[1:]


def generate(folder):
    """Generates an instance, and prints it."""
    return run("generate", os.path.join(folder, "generated.json"), before=("1",))


def report(name, measured):
    size, status, seconds, used, line = measured
    cpu = used.ru_utime + used.ru_stime
    print(f"{name:<16} {size:>10} {status:>6} {seconds:>8.2f} {cpu:>7.2f} {size / 1e6 / cpu:>7.1f} {used.ru_maxrss / 1024:>8.0f}  {line}", flush=True)


def main():
    # It builds the program where that is due. Without words it prints `words`, status 3.
    built = subprocess.run([os.path.join(TOP, "btrplan")], stdin=subprocess.DEVNULL, stdout=subprocess.DEVNULL)
    if built.returncode > 7:
        return built.returncode
    wanted = tuple(sys.argv[1:])
    print(f"{'measurement':<16} {'bytes':>10} {'status':>6} {'seconds':>8} {'cpu s':>7} {'MB/s':>7} {'peak MiB':>8}  line")
    with tempfile.TemporaryDirectory(prefix="btrplan-bench-") as folder:
        for name, pieces in MEASUREMENTS.items():
            if not wanted or name.startswith(wanted):
                report(name, plan(folder, pieces()))
        for name, parts in PLANS.items():
            if not wanted or name.startswith(wanted):
                report(name, replay(folder, parts()))
        for name, parts in EXECUTIONS.items():
            if not wanted or name.startswith(wanted):
                report(name, execute(folder, parts()))
        for name, parts in CHECKS.items():
            if not wanted or name.startswith(wanted):
                report(name, check(folder, parts()))
        if not wanted or "generate".startswith(wanted):
            report("generate", generate(folder))
    return 0


if __name__ == "__main__":
    sys.exit(main())
