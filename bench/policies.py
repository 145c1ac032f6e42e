#!/usr/bin/env python3
"""Plans instances in which a node goes and one kind of constraint binds, and prints a table of what it took.

    bench/policies.py [--strict] [--limit SECONDS] [--program PROGRAM] [--beside PROGRAM] [--sizes NODESxMACHINES,..] [WORD..]

Each row is an instance whose name begins with a WORD, or all: once with machines of different sizes, and once (`ties`) with
machines that are all alike. The other words and the columns are those of `bench/families.py`.
"""
import sys

import families
from operations import SORTS, Site


def site_of(nodes, machines, seed, ties, horizon=300):
    """Machines on nodes; where there are ties all of one size."""
    site = Site(nodes, machines, seed, horizon=horizon)
    site.is_even = ties
    if ties:
        site.uses = [{"cpu": 2, "mem": 4} for _ in site.uses]
    return site


def hosted(site, nodes):
    wanted = set(nodes)
    return [v for v, n in enumerate(site.hosts) if n in wanted]


def quarters(site):
    width = -(-site.count // 4)
    return [list(range(n, min(n + width, site.count))) for n in range(0, site.count, width)]


def load(site, nodes, resource):
    return sum(site.uses[v][resource] for v in hosted(site, nodes))


def alone(site):
    """Nothing but that the node goes: the others may stay or go too."""
    site.rule("offline", nodes=[0])
    return site.made(75, 1)


def fenced(site):
    """Sixteen groups of machines are kept to all nodes but two."""
    site.leave([0])
    for k in range(16):
        out = set(site.pick.sample(range(1, site.count), 2))
        site.rule("fence", machines=site.some(len(site.uses) // 4, out), nodes=[n for n in range(site.count) if n not in out],
                  continuous=k % 2 == 0)
    return site.made(75, 1)


def banned(site):
    """Sixteen groups are kept off a half of the nodes."""
    site.leave([0])
    for k in range(16):
        out = set(site.pick.sample(range(1, site.count), site.count // 2))
        site.rule("ban", machines=site.some(len(site.uses) // 5, out | {0}), nodes=sorted(out), continuous=k % 2 == 0)
    return site.made(70, 1)


def rooted(site):
    """Two machines of three may not move."""
    site.leave([0])
    site.rule("root", machines=[v for v in range(len(site.uses)) if site.hosts[v] != 0 and v % 3])
    return site.made(80, 1)


def zoned(site):
    """Twelve applications stay each in one of four zones, at all times or at the end."""
    site.leave([0])
    zones = quarters(site)
    for k in range(12):
        some = hosted(site, zones[k % len(zones)])
        site.rule("among", machines=site.pick.sample(some, max(2, len(some) // 8)), continuous=k % 2 == 0,
                  groups=[[f"n{n}" for n in zone] for zone in zones])
    return site.made(70, 1)


def gathered(site):
    """What leaves goes in pairs to one node each."""
    site.leave([0])
    leaving = hosted(site, [0])
    for k in range(0, len(leaving) - 1, 2):
        site.rule("gather", machines=leaving[k:k + 2], continuous=False)
    return site.made(60, 1)


def dedicated(site):
    """A quarter of the nodes is kept for its tenant; the node that goes is one of them."""
    site.leave([0])
    site.rule("lonely", machines=hosted(site, range(site.count // 4)), continuous=True)
    return site.made(60, 1)


def licensed(site):
    """Each of four racks may use little or nothing more of a licence than now."""
    site.leave([0])
    for k, rack in enumerate(quarters(site)):
        site.rule("resourceCapacity", nodes=rack, resource="cpu", amount=load(site, rack, "cpu") + 12 * (k % 2), continuous=True)
    return site.made(70, 1)


def limited(site):
    """At most so many machines on each node as the fullest has now."""
    site.leave([0])
    most = max(len(hosted(site, [n])) for n in range(site.count))
    for n in range(site.count):
        site.rule("runningCapacity", nodes=[n], amount=most, continuous=True)
    return site.made(70, 1)


def capped(site):
    """A sixth of the nodes is to be dark in the end, whichever."""
    site.rule("maxOnline", nodes=range(site.count), amount=site.count - site.count // 6, continuous=False)
    return site.made(55, site.count // 6)


def apart(site):
    """Five services are on different nodes in the end, and one at all times."""
    site.leave([0])
    for _ in range(5):
        site.rule("spread", machines=site.some(site.count // 2), continuous=False)
    first = {}
    for v in site.some(len(site.uses) // 2):
        first.setdefault(site.hosts[v], v)
    site.rule("spread", machines=sorted(first.values()), continuous=True)
    return site.made(70, 1)


def tenants(site):
    """Two tenants, each on a half of the nodes, share none in the end."""
    site.leave([0])
    half = site.count // 2
    halves = [hosted(site, range(half)), hosted(site, range(half, site.count))]
    site.rule("split", parts=[[f"v{v}" for v in some] for some in halves], continuous=False)
    return site.made(75, 1)


def ordered(site):
    """What leaves does so one after another, and sixty other pairs are ordered too."""
    site.leave([0])
    leaving = hosted(site, [0])
    pairs = list(zip(leaving, leaving[1:])) + [sorted(site.pick.sample(range(len(site.uses)), 2)) for _ in range(60)]
    for before, after in pairs:
        site.rule("precedence", before=f"v{before}", after=f"v{after}")
    return site.made(70, 1)


def one_by_one(site):
    """Forty machines move one at a time, if at all."""
    site.leave([0])
    site.rule("serialize", machines=site.some(min(40, len(site.uses) // 3), {0}))
    return site.made(70, 1)


def crowded(site):
    """There is no room for what leaves."""
    site.leave([0])
    given = site.made(100, 1)
    for n, node in enumerate(given["nodes"]):
        node["capacity"] = {r: load(site, [n], r) for r in SORTS}
    return given


def crowded_hour(site):
    """The same within an hour."""
    site.horizon = 3_600
    return crowded(site)


def quiet(site):
    """Nothing is to be done, and two hundred spreads hold."""
    site.leave([])
    for _ in range(200):
        first = {}
        for v in site.some(5):
            first.setdefault(site.hosts[v], v)
        site.rule("spread", machines=sorted(first.values()), continuous=True)
    return site.made(80)


def pairs(site):
    """Half of the machines have a twin on another node, at all times."""
    site.leave([0])
    some = site.some(len(site.uses) // 2)
    for a, b in zip(some[::2], some[1::2]):
        if site.hosts[a] != site.hosts[b]:
            site.rule("spread", machines=[a, b], continuous=True)
    return site.made(75, 1)


def counted(site):
    """Each of four racks may hold two machines more than now, or none."""
    site.leave([0])
    for k, rack in enumerate(quarters(site)):
        site.rule("runningCapacity", nodes=rack, amount=len(hosted(site, rack)) + 2 * (k % 2), continuous=True)
    return site.made(75, 1)


def members(site, count):
    """A machine of each of so many nodes, the one that goes among them."""
    nodes = [0, *site.pick.sample(range(1, site.count), count - 1)]
    return [site.pick.choice(hosted(site, [n])) for n in nodes]


def services(site):
    """Five services have a member on two nodes of three each, apart at all times."""
    site.leave([0])
    for _ in range(5):
        site.rule("spread", machines=members(site, site.count * 2 // 3), continuous=True)
    return site.made(75, 1)


def wide(site):
    """Two services have a member on all nodes but one."""
    site.leave([0])
    for _ in range(2):
        site.rule("spread", machines=members(site, site.count - 1), continuous=True)
    return site.made(75, 1)


def walled(site):
    """Three tenants, each on a third of the nodes, share none at any time."""
    site.leave([0])
    thirds = [[v for v, n in enumerate(site.hosts) if n * 3 // site.count == k] for k in range(3)]
    site.rule("split", parts=[[f"v{v}" for v in third] for third in thirds], continuous=True)
    return site.made(75, 1)


def in_turn(site):
    """What leaves does so one at a time, in any order."""
    site.horizon = 1_000
    site.leave([0])
    site.rule("serialize", machines=hosted(site, [0]))
    return site.made(75, 1)


def overbooked(site):
    """A third of the cpu that is used is written, and nodes are overbooked by threes, forty windows of them less."""
    site.leave([0])
    given = site.made(75, 1)
    for node in given["nodes"]:
        node["capacity"] = {**node["capacity"], "cpu": node["capacity"]["cpu"] // 3 + 2}
    site.rule("overbook", nodes=range(site.count), resource="cpu", num=3, den=1)
    for _ in range(40):
        nodes = sorted(site.pick.sample(range(site.count), 5))
        site.rule("overbook", nodes=nodes, resource="cpu", num=site.pick.randint(285, 300), den=100)
    return given


def asleep(site):
    """A quarter of the machines is put to sleep."""
    site.leave([])
    site.wish("sleeping", site.some(len(site.uses) // 4))
    return site.made(85)


def powered(site):
    """Two nodes are dark, the others are full but for a little, one goes, and not more may be powered in the end than now."""
    dark = [site.count - 2, site.count - 1]
    for v in hosted(site, dark):
        site.states[v] = "ready"
    site.rule("offline", nodes=[0])
    site.rule("online", nodes=range(1, site.count - 2))
    site.rule("maxOnline", nodes=range(site.count), amount=site.count - 1, continuous=True)
    site.rule("maxOnline", nodes=range(site.count), amount=site.count - 2, continuous=False)
    given = site.made(70)
    for n, node in enumerate(given["nodes"]):
        if n in dark:
            node["online"] = False
        elif n:
            node["capacity"] = {r: load(site, [n], r) + n % 2 for r in SORTS}
    return given


def mended(site):
    """A rack has to give up an eighth of its cpu."""
    site.leave([])
    rack = quarters(site)[0]
    site.rule("resourceCapacity", nodes=rack, resource="cpu", amount=load(site, rack, "cpu") * 7 // 8, continuous=False)
    return site.made(75)


def puzzles(site):
    """Two blocks of four nodes; in each of them three machines are to rotate over the fourth node, in some order."""
    site.leave([])
    given = site.made(75)
    for first in (0, 4):
        block = range(first, first + 4)
        moved = [hosted(site, [n])[0] for n in block[:3]]
        for k, (n, v) in enumerate(zip(block, moved)):
            site.uses[v].update(cpu=7, mem=6 + k)
            given["nodes"][n]["capacity"] = {r: load(site, [n], r) for r in SORTS}
            site.rule("ban", machines=[v], nodes=[it for it in range(site.count) if it == n or it not in block])
        spare = block[3]
        given["nodes"][spare]["capacity"] = {"cpu": load(site, [spare], "cpu") + 7, "mem": load(site, [spare], "mem") + 8}
    return given


def overfull(site):
    """Four nodes hold more than they have room for now, so no plan is valid."""
    site.leave([0])
    given = site.made(85, 1)
    for n in site.pick.sample(range(1, site.count), 4):
        given["nodes"][n]["capacity"] = {**given["nodes"][n]["capacity"], "mem": load(site, [n], "mem") - 1}
    return given


def day(site):
    """Nothing but that the node goes, within a day."""
    site.horizon = 86_400
    site.leave([0])
    return site.made(75, 1)


def eight(site):
    """The same with eight resources, all of them full to 85 percent."""
    site.leave([0])
    more = ("disk", "iops", "net", "gpu", "ports", "seats")
    for use in site.uses:
        use.update({r: use["cpu"] if site.is_even else site.pick.randint(1, 9) for r in more})
    return site.made(85, 1, (*SORTS, *more))


ALL = (alone, fenced, banned, rooted, zoned, gathered, dedicated, licensed, limited, capped, apart, tenants, ordered,
       one_by_one, crowded, crowded_hour, quiet, pairs, counted, services, wide, walled, in_turn, overbooked, asleep, powered,
       mended, puzzles, overfull, day, eight)


def main():
    asked = families.words_of("Plans instances in which one kind of constraint binds.", 60)
    asked.add_argument("--sizes", default="40x200,100x600,200x1600", help="numbers of nodes and machines")
    asked = asked.parse_args()
    sizes = [tuple(map(int, it.split("x"))) for it in asked.sizes.split(",")]
    rows = ((f"{make.__name__.replace('_', '-')} {nodes} {machines}{' ties' if ties else ''}",
             lambda make, *sizes: make(site_of(*sizes)), (make, nodes, machines, 7, ties))
            for nodes, machines in sizes for make in ALL for ties in (False, True))
    families.print_table(rows, asked)
    return 0


if __name__ == "__main__":
    sys.exit(main())
