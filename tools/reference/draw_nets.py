"""Seeded nets, damaged nets, damaged plans and streams of packets to compare programs on.

    draw_nets.py FOLDER COUNT SEED      writes the nets that compare.py draws for this seed, one file each

Everything that is drawn depends on the seed alone.
"""
from __future__ import annotations

import itertools
import os
import random
import sys
from typing import Callable, Iterator

from mivondocs import (
    MAX_LINKS,
    MAX_NODES,
    MAX_RATE,
    MAX_RECEIVERS,
    PACKET,
    Net,
    Packet,
    message_record,
    packet_record,
    routes,
    write_net,
)

Link = tuple[int, int]


# ---- Nets ------------------------------------------------------------------------------------------------------


def without_dry_links(links: list[Link]) -> list[Link]:
    """Leaves out links whose beginning no link leads into (fault 10), until there is none."""
    while True:
        fed = {0} | {end for _, end in links}
        kept = [link for link in links if link[0] in fed]
        if len(kept) == len(links):
            return kept
        links = kept


def in_some_order(r: random.Random, links: list[Link]) -> list[Link]:
    """The links in a drawn order, in which each link into a node stands before each link out of it.

    Programs that only ever see links sorted by their beginnings could hide a wrong use of the order.
    """
    waiting_for: dict[int, int] = {}
    for _, end in links:
        waiting_for[end] = waiting_for.get(end, 0) + 1
    ready = [link for link in links if not waiting_for.get(link[0])]
    held = [link for link in links if waiting_for.get(link[0])]
    ordered = []
    while ready:
        link = ready.pop(r.randrange(len(ready)))
        ordered.append(link)
        waiting_for[link[1]] -= 1
        if not waiting_for[link[1]]:
            ready += [other for other in held if other[0] == link[1]]
            held = [other for other in held if other[0] != link[1]]
    return ordered


def finished(r: random.Random, nodes: int, links: list[Link], rate: int, receivers: int) -> Net:
    """A net from links that lead from lower to higher nodes: nodes renamed, links put in order, receivers drawn."""
    links = without_dry_links(links[:MAX_LINKS])
    name = [0] + r.sample(range(1, nodes), nodes - 1)
    links = [(name[start], name[end]) for start, end in links]
    links = in_some_order(r, links) if r.random() < 0.8 else links
    return Net(nodes, tuple(_sorted_if_needed(links)), rate, tuple(sorted(r.sample(range(1, nodes), receivers))))


def _sorted_if_needed(links: list[Link]) -> list[Link]:
    """The links as they are if their order is allowed, else in an allowed one."""
    left: set[int] = set()
    for start, end in links:
        if end in left:
            return in_some_order(random.Random(0), links)
        left.add(start)
    return links


def layered(r: random.Random) -> Net:
    """Layers of a few nodes, each fed from the layer before and seldom from further back."""
    layers, at = [[0]], 1
    for _ in range(r.randint(1, 5)):
        width = r.randint(1, 5)
        layers.append(list(range(at, at + width)))
        at += width
    rate = r.randint(1, 5)
    links = []
    for before, layer in zip(layers, layers[1:]):
        for node in layer:
            for _ in range(rate + r.randint(-1, 1)):
                links.append((r.choice(before) if r.random() < 0.9 else r.randrange(layer[0]), node))
    return finished(r, at, links, rate, min(at - 1, r.randint(1, 8)))


def parallel(r: random.Random) -> Net:
    """Few nodes, many links between the same two."""
    nodes = r.randint(2, 5)
    rate = r.randint(1, 8)
    links = []
    for end in range(1, nodes):
        for start in range(end):
            links += [(start, end)] * r.choice([0, 1, rate, rate + 2])
    return finished(r, nodes, links, rate, r.randint(1, nodes - 1))


def combination(r: random.Random) -> Net:
    """Every receiver hears another choice of the relays, so links are shared by many and small t don't do."""
    rate = r.randint(2, 3)
    relays = r.randint(rate, 7)
    chosen = list(itertools.combinations(range(1, relays + 1), rate))
    chosen = r.sample(chosen, min(len(chosen), r.randint(1, MAX_RECEIVERS)))
    links = [(0, relay) for relay in range(1, relays + 1)]
    for i, some in enumerate(chosen):
        links += [(relay, relays + 1 + i) for relay in some]
    nodes = relays + 1 + len(chosen)
    net = finished(r, nodes, links, rate, 1)
    ends = tuple(node for node in range(1, nodes) if not net.out_of[node])
    return Net(nodes, net.links, rate, ends[:MAX_RECEIVERS])


def shared(r: random.Random) -> Net:
    """Many receivers behind few nodes, each node fed with about as much as the rate asks for."""
    nodes = r.randint(4, 20)
    rate = r.randint(2, 4)
    links = []
    for end in range(1, nodes):
        for _ in range(rate + (r.random() < 0.2)):
            links.append((r.choice([0, r.randrange(end), max(0, end - r.randint(1, 3))]), end))
    return finished(r, nodes, links, rate, min(nodes - 1, r.randint(2, 16)))


def ample(r: random.Random) -> Net:
    """More links than the rate asks for, so that some that come to a receiver are not on its paths."""
    nodes = r.randint(4, 14)
    rate = r.randint(2, 3)
    links = []
    for end in range(1, nodes):
        for _ in range(r.randint(1, rate + 3)):
            links.append((r.randrange(max(0, end - 5), end), end))
    return finished(r, nodes, links, rate, min(nodes - 1, r.randint(2, 8)))


def sparse(r: random.Random) -> Net:
    """Nodes that no link leads to, receivers among them, and many cuts."""
    nodes = r.randint(2, 30)
    count = r.randint(0, 2 * nodes)
    pairs = [sorted(r.sample(range(nodes), 2)) for _ in range(count)]
    return finished(r, nodes, [(a, b) for a, b in pairs], r.choice([1, 1, 1, 2, 3]), r.randint(1, min(8, nodes - 1)))


def crossing(r: random.Random) -> Net:
    """Narrow layers and as high a rate as they bear, so that searches must go back along used links.

    In nets of the other families that is rare, and a wrong order of links onward and links back would hardly show.
    """
    layers, at = [[0]], 1
    for _ in range(r.randint(2, 6)):
        layers.append(list(range(at, at + r.randint(3, 10))))
        at += len(layers[-1])
    ends = list(range(at, at + r.randint(1, 3)))
    links = [(0, node) for node in layers[1] for _ in range(r.choice([1, 1, 2]))]
    for layer, following in zip(layers[1:], layers[2:]):
        links += [(node, r.choice(following)) for node in layer for _ in range(r.randint(1, 3))]
    links += [(node, end) for node in layers[-1] for end in ends for _ in range(r.choice([0, 1, 1, 2]))]
    for _ in range(r.randint(0, 3)):
        first, second = sorted(r.sample(range(len(layers)), 2))
        links.append((r.choice(layers[first]), r.choice(layers[second])))
    return _renamed(r, at + len(ends), without_dry_links(links), ends)


def _renamed(r: random.Random, nodes: int, links: list[Link], ends: list[int]) -> Net:
    """The net with these receivers under drawn names, at the highest rate that serves all, seldom one above."""
    name = [0] + r.sample(range(1, nodes), nodes - 1)
    order = tuple(in_some_order(r, [(name[a], name[b]) for a, b in links]))
    receivers = tuple(sorted(name[end] for end in ends))
    rate = 1
    while rate < MAX_RATE and isinstance(routes(Net(nodes, order, rate + 1, receivers)), list):
        rate += 1
    return Net(nodes, order, min(MAX_RATE, rate + (r.random() < 0.1)), receivers)


FAMILIES: list[Callable[[random.Random], Net]] = [
    layered,
    parallel,
    combination,
    shared,
    shared,
    ample,
    sparse,
    crossing,
    crossing,
]


def served_net(r: random.Random, nodes: int, links: int, rate: int, receivers: int) -> Net:
    """A net of given size all of whose receivers can be served.

    Receivers and relays stand in one order; each gets links from earlier ones only, a receiver at least as many as the
    rate. Of a cut, the first receiver or full relay outside it gets all its links from inside it, as every node before
    it is inside. Relays that get fewer links than the rate are used by nobody but by links beyond the rate.
    """
    spare = links - rate * receivers
    full = min(spare // rate, nodes - 1 - receivers)
    inner = receivers + full
    listening = [True] * receivers + [False] * full
    r.shuffle(listening)
    found: list[Link] = []
    for end in range(1, inner + 1):
        found += [(r.randrange(max(0, end - 12), end), end) for _ in range(rate)]
    while len(found) < links:
        if inner + 1 < nodes and r.random() < 0.7:
            found.append((r.randrange(inner + 1), r.randrange(inner + 1, nodes)))
        else:
            start, end = sorted(r.sample(range(inner + 1), 2))
            found.append((start, end))
    name = [0] + r.sample(range(1, nodes), nodes - 1)
    order = in_some_order(r, [(name[a], name[b]) for a, b in found])
    places = sorted(name[i + 1] for i, yes in enumerate(listening) if yes)
    return Net(nodes, tuple(order), rate, tuple(places))


# Of 1,024 links at most 1,024 / h receivers can be given h links each: 64 up to h = 16, and 32 for h = 32.
LARGEST = [(8, MAX_RECEIVERS), (16, MAX_RECEIVERS), (32, 32)]


def largest(seed: int = 1) -> list[Net]:
    """Nets of 256 nodes and 1,024 links with as many receivers as can be served, at rates 8, 16 and 32."""
    return [served_net(random.Random(seed * 100 + rate), MAX_NODES, MAX_LINKS, rate, n) for rate, n in LARGEST]


def largest_with_cut(seed: int = 1) -> Net:
    """All limits at once: rate 32 and 64 receivers, which 1,024 links can't serve."""
    net = served_net(random.Random(seed), MAX_NODES, MAX_LINKS, 16, MAX_RECEIVERS)
    return Net(net.nodes, net.links, 32, net.receivers)


def drawn(seed: int, index: int) -> Net:
    """The net of this index: any one can be drawn again without those before it."""
    r = random.Random(f"net {seed} {index}")
    return r.choice(FAMILIES)(r)


def at_the_limits(seed: int = 1) -> list[tuple[str, bytes]]:
    """The bytes of nets that are just within or just outside a limit."""
    longest = write_net(largest(seed)[0])
    one = Net(2, ((0, 1),), 1, (1,))
    wide = Net(MAX_NODES, ((0, 255),), 1, (255,))
    many = Net(66, tuple((0, node) for node in range(1, 66)), 1, tuple(range(1, 65)))
    found = [("longest", longest), ("longest and a byte", longest + b"\x00"), ("longest and much", longest + bytes(100000))]
    found += [(f"{count} places", _put(write_net(one), 1, count)) for count in (0, 1, 2, 256, 257, 512, 65535)]
    found += [(f"{count} lines", _put(write_net(one), 3, count)) for count in (0, 1, 2, 1024, 1025, 65535)]
    found.append(("1,025 lines in the longest", _put(longest, 3, 1025)))
    found += [(f"h {rate}", write_net(one)[:9] + bytes([rate]) + write_net(one)[10:]) for rate in (0, 1, 32, 33, 255)]
    found += [(f"{count} listeners", write_net(many)[:266] + bytes([count]) + write_net(many)[267:]) for count in (0, 63, 64)]
    found.append(("65 listeners", write_net(Net(66, many.links, 1, tuple(range(1, 66))))))
    found += [("place 255", write_net(wide)), ("place 256", _put(write_net(wide), 7, 256)), ("nothing", b"")]
    return found


def _put(data: bytes, at: int, value: int) -> bytes:
    return data[:at] + value.to_bytes(2, "big") + data[at + 2 :]


# ---- Damage ----------------------------------------------------------------------------------------------------


def damaged(r: random.Random, data: bytes) -> bytes:
    """The bytes with one or two things done to them: a byte changed, cut short, appended to, left out, doubled."""
    for _ in range(r.choice([1, 1, 1, 2])):
        at = r.randrange(len(data)) if data else 0
        kind = r.randrange(7)
        if kind <= 2 and data:
            value = r.choice([0, 1, 2, data[at] ^ 1, (data[at] + 1) % 256, 255, r.randrange(256)])
            data = data[:at] + bytes([value]) + data[at + 1 :]
        elif kind == 3:
            data = data[:at]
        elif kind == 4:
            data += r.randbytes(r.randint(1, 4))
        elif kind == 5:
            data = data[:at] + data[at + r.randint(1, 4) :]
        else:
            end = at + r.randint(1, 4)
            data = data[:end] + data[at:end] + data[end:]
    return data


# ---- Streams ---------------------------------------------------------------------------------------------------


def _stray(r: random.Random, net: Net, rounds: int) -> bytes:
    """A record that is likely refused: an unknown kind, a foreign line, a round far off."""
    link = r.choice([r.randrange(len(net.links) + 1), r.randrange(65536)])
    round = r.choice([r.randrange(rounds + 6), 2**32 - 1, r.randrange(2**32)])
    record = packet_record(Packet(link, round, r.randbytes(PACKET)))
    return bytes([r.choice([0, 4, 255])]) + record[1:] if r.random() < 0.2 else record


def packet_stream(r: random.Random, net: Net, place: int, rounds: int) -> bytes:
    """Packets for a node in about the order of rounds, with some too early, doubled, foreign, and a tail."""
    wanted = [(i + r.random() * r.choice([0.5, 2, 4]), i, k) for i in range(rounds) for k in net.into[place]]
    records = [packet_record(Packet(k, i, r.choice([bytes(PACKET), r.randbytes(PACKET)]))) for _, i, k in sorted(wanted)]
    return _with_strays(r, records, lambda: _stray(r, net, rounds))


def message_stream(r: random.Random, net: Net, rounds: int) -> bytes:
    """Messages for the source, likewise."""

    def message(round: int) -> bytes:
        return message_record(round, [r.randbytes(PACKET) for _ in range(net.rate)])

    order = sorted(range(rounds), key=lambda i: i + r.random() * r.choice([0.5, 2, 4]))

    def stray() -> bytes:
        record = message(r.choice([r.randrange(rounds + 6), 2**32 - 1]))
        return bytes([r.choice([0, 5, 255])]) + record[1:] if r.random() < 0.2 else record

    return _with_strays(r, [message(i) for i in order], stray)


def _with_strays(r: random.Random, records: list[bytes], stray: Callable[[], bytes]) -> bytes:
    if r.random() < 0.6:
        for _ in range(r.randint(1, 4)):
            added = r.choice(records) if records and r.random() < 0.5 else stray()
            records.insert(r.randint(0, len(records)), added)
    tail = records[0][: r.randint(1, 1000)] if records and r.random() < 0.1 else b""
    return b"".join(records) + tail


def message_file(r: random.Random, net: Net) -> bytes:
    """A message file of any length up to three messages: empty, whole, with a part, with whole packets of zeros."""
    size = net.rate * PACKET
    length = r.choice([0, 1, size, size - 1, size + 1, 2 * size, r.randint(1, 3 * size)])
    data = bytearray(r.randbytes(length))
    for at in range(0, length, PACKET):
        if r.random() < 0.3:
            data[at : at + PACKET] = bytes(len(data[at : at + PACKET]))
    return bytes(data)


def all_nets(seed: int, count: int) -> Iterator[tuple[str, Net]]:
    for index in range(count):
        yield f"{index:05}", drawn(seed, index)
    for net in largest(seed):
        yield f"largest{net.rate}", net
    yield "largestcut", largest_with_cut(seed)


def main() -> None:
    folder, count, seed = sys.argv[1], int(sys.argv[2]), int(sys.argv[3])
    os.makedirs(folder, exist_ok=True)
    for name, net in all_nets(seed, count):
        with open(f"{folder}/{name}.net", "wb") as file:
            file.write(write_net(net))


if __name__ == "__main__":
    main()
