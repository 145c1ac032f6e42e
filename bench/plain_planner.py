"""A slow planner of tiny instances, to compare the program's answers with.

It goes over all plans, the cheapest first, and judges each at every instant by the rules as docs/MODEL.md has
them. It shares nothing with the program but the formats, and reads only instances that the program accepts.
"""
import itertools

STATES = {"running": "running", "sleeping": "sleeping", "ready": "ready", "killed": "gone"}


class Choice:
    """What an element does: idle where `kind` is None, else an action at a place (None is nowhere)."""

    def __init__(self, kind=None, place=None, start=0, end=0):
        self.kind, self.place, self.start, self.end = kind, place, start, end

    def started(self, t):
        return self.kind is not None and t >= self.start

    def unended(self, t):
        return self.kind is not None and t < self.end


IDLE = Choice()


class Instance:
    """An instance, with what the rules ask of it."""

    def __init__(self, given):
        self.horizon = given["horizon"]
        self.resources = given["resources"]
        self.nodes = given["nodes"]
        self.machines = given["machines"]
        self.constraints = given["constraints"]
        self.durations = given.get("durations", {})

    def wishes(self, name):
        """All states that constraints want of an element."""
        found = set()
        for c in self.constraints:
            if c["kind"] in STATES and name in c["machines"]:
                found.add(STATES[c["kind"]])
            if c["kind"] in ("online", "offline") and name in c["nodes"]:
                found.add(c["kind"])
        return found

    def use(self, machine):
        return [machine.get("use", {}).get(r, 0) for r in self.resources]

    def demand(self, machine):
        wanted = self.use(machine)
        for c in self.constraints:
            if c["kind"] == "preserve" and machine["name"] in c["machines"]:
                r = self.resources.index(c["resource"])
                wanted[r] = max(wanted[r], c["amount"])
        return wanted

    def capacity(self, node):
        written = [node.get("capacity", {}).get(r, 0) for r in self.resources]
        booked = [[c["num"] * w // c["den"] for c in self.constraints
                   if c["kind"] == "overbook" and c["resource"] == r and node["name"] in c["nodes"]]
                  for r, w in zip(self.resources, written)]
        return [min(b) if b else w for b, w in zip(booked, written)]

    def duration(self, element, kind, amounts):
        found = element.get("durations", {}).get(kind) or self.durations.get(kind) or {"base": 1}
        per = found.get("per", 0)
        return found["base"] + (per * amounts.get(found["resource"], 0) if per else 0)

    def acts(self, element, kind, place, amounts):
        lasts = self.duration(element, kind, amounts)
        return [Choice(kind, place, s, s + lasts) for s in range(self.horizon - lasts + 1)]

    def node_choices(self, node):
        wishes, amounts = self.wishes(node["name"]), node.get("capacity", {})
        if len(wishes) > 1:
            return []
        on = node.get("online", True)
        keeps, turns = ("online", "offline") if on else ("offline", "online")
        kind = "node_shutdown" if on else "node_boot"
        idle = [] if turns in wishes else [IDLE]
        return idle + ([] if keeps in wishes else self.acts(node, kind, None, amounts))

    def machine_choices(self, machine):
        wishes, amounts, state = self.wishes(machine["name"]), machine.get("use", {}), machine["state"]
        host = machine.get("node")
        if len(wishes) > 1:
            return []
        wanted = next(iter(wishes), None)
        if state == "init" and wanted is None:
            return [IDLE]
        wanted = wanted or state
        acts = lambda kind, places: [c for at in places for c in self.acts(machine, kind, at, amounts)]
        names = [n["name"] for n in self.nodes]
        if (state, wanted) == ("running", "running"):
            stays = acts("allocate", [host]) if self.demand(machine) != self.use(machine) else [IDLE]
            return stays + acts("migrate", [n for n in names if n != host])
        if (state, wanted) in (("ready", "ready"), ("sleeping", "sleeping"), ("gone", "gone")):
            return [IDLE]
        one = {
            ("init", "ready"): ("forge", [None]),
            ("ready", "running"): ("boot", names),
            ("ready", "gone"): ("kill", [None]),
            ("running", "ready"): ("shutdown", [None]),
            ("running", "sleeping"): ("suspend", [host]),
            ("running", "gone"): ("kill", [None]),
            ("sleeping", "running"): ("resume", names),
            ("sleeping", "gone"): ("kill", [None]),
        }.get((state, wanted))
        return acts(*one) if one else []


def held(p, machine, choice, t):
    """What a machine holds at an instant: a list of (node, amounts, whether it is a presence), and the node of its image."""
    use, demand, host = p.use(machine), p.demand(machine), machine.get("node")
    started, unended = choice.started(t), choice.unended(t)
    if machine["state"] == "running":
        if choice.kind is None:
            return [(host, use, True)], None
        if choice.kind == "allocate":
            return [(host, demand if started else use, True)], None
        uses = [(host, use, True)] if unended else []
        if choice.kind == "migrate" and started:
            uses.append((choice.place, demand, True))
        return uses, host if choice.kind == "suspend" and started else None
    if machine["state"] == "sleeping":
        if choice.kind is None:
            return [], host
        uses = [(choice.place, demand, True)] if choice.kind == "resume" and started else []
        return uses, host if unended else None
    return [(choice.place, demand, True)] if choice.kind == "boot" and started else [], None


def is_usable(node, choice, t):
    if choice.kind is None:
        return node.get("online", True)
    return not choice.unended(t) if choice.kind == "node_boot" else not choice.started(t)


def is_powered(node, choice, t):
    if choice.kind is None:
        return node.get("online", True)
    return choice.started(t) if choice.kind == "node_boot" else choice.unended(t)


class Moment:
    """All that rules ask at an instant of a plan."""

    def __init__(self, p, machines, nodes, t):
        self.at, self.images, self.t = {}, {}, t
        self.choices = {m["name"]: c for m, c in zip(p.machines, machines)}
        self.loads = {n["name"]: [0] * len(p.resources) for n in p.nodes}
        for machine, choice in zip(p.machines, machines):
            uses, image = held(p, machine, choice, t)
            self.at[machine["name"]] = {node for node, _, _ in uses}
            self.images[machine["name"]] = image
            for node, amounts, _ in uses:
                self.loads[node] = [a + b for a, b in zip(self.loads[node], amounts)]
        self.usable = {n["name"] for n, c in zip(p.nodes, nodes) if is_usable(n, c, t)}
        self.powered = {n["name"] for n, c in zip(p.nodes, nodes) if is_powered(n, c, t)}


def are_apart(now, groups):
    """No node has presences of members of two of the groups."""
    places = [set().union(*(now.at[v] for v in group)) for group in groups]
    return all(not (a & b) for a, b in itertools.combinations(places, 2))


def holds(p, c, now):
    kind, members, nodes = c["kind"], c.get("machines", []), set(c.get("nodes", []))
    places = [now.at[v] for v in members]
    everywhere = set().union(*places)
    if kind == "spread":
        return are_apart(now, [[v] for v in members])
    if kind == "split":
        return are_apart(now, c["parts"])
    if kind == "lonely":
        return are_apart(now, [members, [v for v in now.at if v not in members]])
    if kind == "ban":
        return not (everywhere & nodes)
    if kind == "fence":
        return everywhere <= nodes
    if kind == "gather":
        return len(everywhere) <= 1
    if kind == "among":
        return not everywhere or any(everywhere <= set(group) for group in c["groups"])
    if kind == "root":
        hosts = {m["name"]: m["node"] for m in p.machines if m["state"] == "running"}
        return all(v not in hosts or now.at[v] <= {hosts[v]} for v in members)
    if kind == "resourceCapacity":
        r = p.resources.index(c["resource"])
        return sum(now.loads[n][r] for n in nodes) <= c["amount"]
    if kind == "runningCapacity":
        return sum(len(at & nodes) for at in now.at.values()) <= c["amount"]
    if kind == "maxOnline":
        return len(now.powered & nodes) <= c["amount"]
    if kind == "precedence":
        return not (now.choices[c["after"]].started(now.t) and now.choices[c["before"]].unended(now.t))
    if kind == "serialize":
        acting = [v for v in members if now.choices[v].started(now.t) and now.choices[v].unended(now.t)]
        return len(acting) <= 1
    return True


ALWAYS = ("root", "precedence", "serialize")


def is_valid(p, machines, nodes):
    for t in range(p.horizon + 1):
        now = Moment(p, machines, nodes, t)
        if any(a > b for n in p.nodes for a, b in zip(now.loads[n["name"]], p.capacity(n))):
            return False
        if any(not at <= now.usable for at in now.at.values()):
            return False
        if any(image and image not in now.usable for image in now.images.values()):
            return False
        if any(not holds(p, c, now) for c in p.constraints
               if c["kind"] in ALWAYS or c.get("continuous") or t == p.horizon):
            return False
    return True


def plan_count(p):
    total = 1
    for m in p.machines:
        total *= len(p.machine_choices(m))
    for n in p.nodes:
        total *= len(p.node_choices(n))
    return total


def least_cost(p):
    """The cost of a cheapest valid plan, or None where there is none."""
    sets = [p.machine_choices(m) for m in p.machines] + [p.node_choices(n) for n in p.nodes]
    plans = sorted(itertools.product(*sets), key=lambda plan: sum(c.end for c in plan))
    count = len(p.machines)
    return next((sum(c.end for c in plan) for plan in plans if is_valid(p, plan[:count], plan[count:])), None)


def cost_of_file(p, plan):
    """The cost of a plan file's plan, or None where it is not a valid plan of the instance."""
    named = {a["element"]: a for a in plan["actions"]}
    found = []
    for element, choices in [(m, p.machine_choices(m)) for m in p.machines] + [(n, p.node_choices(n)) for n in p.nodes]:
        a = named.pop(element["name"], None)
        wanted = (None, None, 0) if a is None else (a["kind"], a.get("place"), a["start"])
        match = [c for c in choices if (c.kind, c.place, c.start) == wanted]
        if len(match) != 1:
            return None
        found += match
    count = len(p.machines)
    if named or not is_valid(p, found[:count], found[count:]):
        return None
    return sum(c.end for c in found)
