"""Instances of what operators ask for, for `bench/strength.py` and `bench/solvers`.

Each function makes an instance from a number of nodes, a number of machines and a seed. Machines are dealt over the nodes
by load, and nodes are alike. All numbers come from `random.Random(seed)`.
"""
import random

ACTIONS = {
    "migrate": {"base": 2, "per": 1, "resource": "mem"}, "suspend": {"base": 2, "per": 1, "resource": "mem"},
    "resume": {"base": 2, "per": 1, "resource": "mem"}, "boot": {"base": 3}, "shutdown": {"base": 2},
    "node_boot": {"base": 20}, "node_shutdown": {"base": 5},
}
SORTS = ("cpu", "mem")


class Site:
    """Nodes and machines, and what is asked of them."""

    def __init__(self, nodes, machines, seed, unit=1, horizon=300):
        self.pick = random.Random(seed)
        self.horizon, self.count = horizon, nodes
        self.uses, self.hosts, self.states, self.rules = [], [], ["running"] * machines, []
        loads = [0] * nodes
        for v in range(machines):
            cpu = self.pick.choice((1, 1, 2, 2, 4, 4, 8))
            mem = cpu * self.pick.choice((1, 2, 2, 4))
            host = v if v < nodes else min(self.pick.sample(range(nodes), min(4, nodes)), key=lambda n: loads[n])
            loads[host] += cpu + mem
            self.hosts.append(host)
            self.uses.append({"cpu": cpu, "mem": mem * unit})

    def some(self, count, without=()):
        return self.pick.sample([v for v in range(len(self.uses)) if self.hosts[v] not in without], count)

    def rule(self, kind, machines=None, nodes=None, **fields):
        if machines is not None:
            fields["machines"] = [f"v{v}" for v in machines]
        if nodes is not None:
            fields["nodes"] = [f"n{n}" for n in nodes]
        self.rules.append({"kind": kind, **fields})

    def leave(self, nodes):
        """Some nodes go, and the others stay."""
        if nodes:
            self.rule("offline", nodes=nodes)
        self.rule("online", nodes=[n for n in range(self.count) if n not in nodes])

    def wish(self, kind, machines, state="running"):
        """Machines in that state are to be of that kind in the end."""
        for v in machines:
            self.states[v] = state
        self.rule(kind, machines=machines)

    def made(self, percent, gone=0, sorts=SORTS):
        """The instance: what runs in the end fills so many percent of the nodes that stay."""
        sizes = {}
        for r in sorts:
            loads = [0] * self.count
            for use, host, state in zip(self.uses, self.hosts, self.states):
                loads[host] += use[r] if state == "running" else 0
            total = sum(use[r] for use in self.uses)
            sizes[r] = max(max(loads), -(-100 * total // (percent * (self.count - gone))))
        machines = []
        for v, (use, host, state) in enumerate(zip(self.uses, self.hosts, self.states)):
            machines.append({"name": f"v{v}", "state": state, "use": use})
            if state in ("running", "sleeping"):
                machines[-1]["node"] = f"n{host}"
        nodes = [{"name": f"n{n}", "capacity": sizes} for n in range(self.count)]
        return {"horizon": self.horizon, "resources": list(sorts), "durations": ACTIONS, "nodes": nodes,
                "machines": machines, "constraints": self.rules}


def boot(nodes, machines, seed):
    """A fifth of the machines boots."""
    site = Site(nodes, machines, seed)
    site.leave([])
    site.wish("running", site.some(machines // 5), "ready")
    return site.made(85)


def resume(nodes, machines, seed):
    """A tenth of the machines resumes, and a node goes."""
    site = Site(nodes, machines, seed)
    site.leave([0])
    site.wish("running", site.some(machines // 10, [0]), "sleeping")
    return site.made(75, 1)


def night(nodes, machines, seed):
    """Machines are killed, stopped, put to sleep and booted, and a node goes."""
    site = Site(nodes, machines, seed)
    site.leave([0])
    some, each = site.some(machines // 4, [0]), machines // 20
    for k, kind in enumerate(("killed", "ready", "sleeping")):
        site.wish(kind, some[k * each:(k + 1) * each])
    site.wish("running", some[3 * each:], "ready")
    return site.made(75, 1)


def demand(nodes, machines, seed):
    """One machine in five wants one cpu more than it has."""
    site = Site(nodes, machines, seed)
    site.leave([])
    by_amount = {}
    for v in site.some(machines // 5):
        by_amount.setdefault(site.uses[v]["cpu"] + 1, []).append(v)
    for amount, some in sorted(by_amount.items()):
        site.rule("preserve", machines=some, resource="cpu", amount=amount)
    return site.made(80)


def rack(nodes, machines, seed):
    """An eighth of the nodes goes."""
    site = Site(nodes, machines, seed)
    site.leave(list(range(nodes // 8)))
    return site.made(75, nodes // 8)


def slow_rack(nodes, machines, seed):
    """The same in seconds, with memory in MiB."""
    site = Site(nodes, machines, seed, unit=1024, horizon=1_000_000)
    site.leave(list(range(nodes // 8)))
    return site.made(75, nodes // 8)


def consolidate(nodes, machines, seed):
    """Three nodes of ten go."""
    site = Site(nodes, machines, seed)
    gone = [n for n in range(nodes) if n % 10 < 3]
    site.leave(gone)
    return site.made(75, len(gone))


def tight(nodes, machines, seed):
    """A node goes, and the others are so full then that much has to fit exactly."""
    site = Site(nodes, machines, seed)
    site.leave([0])
    return site.made(96, 1)


def part(nodes, machines, seed):
    """Twenty services whose members are to be on different nodes in the end."""
    site = Site(nodes, machines, seed)
    site.leave([])
    for _ in range(20):
        site.rule("spread", machines=site.some(nodes // 4))
    return site.made(70)


def bring(nodes, machines, seed):
    """Ten groups of three that are to come together."""
    site = Site(nodes, machines, seed)
    site.leave([])
    some = site.some(30)
    for k in range(0, 30, 3):
        site.rule("gather", machines=some[k:k + 3])
    return site.made(55)


ALL = (boot, resume, night, demand, rack, slow_rack, consolidate, tight, part, bring)
