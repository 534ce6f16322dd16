#!/usr/bin/env python3
"""An independent reference for nets, plans, boxes and listeners, written from the rules alone.

It shares no code and no method with the proved programs where the rules leave a choice: products come from tables of
logarithms, independence and rows from Gaussian elimination started anew for each question, and a whole net is played
line by line. It is meant to be read and to be compared with, not to be fast.

    mivondocs.py plan NET PLAN
    mivondocs.py box NET PLAN PLACE
    mivondocs.py listen NET PLAN PLACE
    mivondocs.py play NET PLAN MESSAGE
"""
from __future__ import annotations

import sys
from collections import deque
from dataclasses import dataclass, field
from typing import BinaryIO, Iterator, Sequence

PACKET = 1024
PACKET_RECORD = 1 + 2 + 4 + PACKET
EARLY = 2  # a packet may come this many rounds before its round is the current one
MAX_NODES, MAX_LINKS, MAX_RATE, MAX_RECEIVERS = 256, 1024, 32, 64
CUT_BYTES = 32

# What is told of each number. The wording of 1 and 2 is the programs' own: the rules fix causes and numbers only.
TEXTS = {
    1: "unknown kind or bad length",
    2: "a count out of range, or a place that isn't there",
    3: "a line into the source, or from a place to itself",
    4: "a line into a place after one out of it",
    5: "listeners not rising, or the source among them",
    6: "a packet on a line that doesn't come in here",
    7: "a second packet for a line and round, or for a round that is over",
    8: "more than 2 rounds early",
    9: "a plan that isn't for this net",
    10: "a line out of a place, not the source, that no line comes into",
}


# ---- Bytes as a field ------------------------------------------------------------------------------------------


def _powers_of_three() -> list[int]:
    """The powers of 3 = x + 1, which run through every byte but 0."""
    powers, value = [], 1
    for _ in range(255):
        powers.append(value)
        value ^= value << 1
        if value & 0x100:
            value ^= 0x11B
    return powers


_POWER = _powers_of_three()
_LOG = {value: exponent for exponent, value in enumerate(_POWER)}


def product(a: int, b: int) -> int:
    """The product of two bytes, by adding logarithms."""
    if a == 0 or b == 0:
        return 0
    return _POWER[(_LOG[a] + _LOG[b]) % 255]


def inverse(a: int) -> int:
    """The byte whose product with a (not 0) is 1."""
    return _POWER[-_LOG[a] % 255]


# TIMES[c] is the table by which bytes.translate multiplies each byte with c.
TIMES = [bytes(product(c, a) for a in range(256)) for c in range(256)]


def multiple(c: int, data: bytes) -> bytes:
    """c times each byte."""
    return data.translate(TIMES[c])


def total(a: bytes, b: bytes) -> bytes:
    """The sum of two strings of bytes of the same length."""
    return (int.from_bytes(a, "big") ^ int.from_bytes(b, "big")).to_bytes(len(a), "big")


def mix(coefficients: Sequence[int], packets: Sequence[bytes], size: int) -> bytes:
    """The sum of the multiples; of nothing it is 0."""
    result = 0
    for c, packet in zip(coefficients, packets, strict=True):
        if c:
            result ^= int.from_bytes(packet.translate(TIMES[c]), "big")
    return result.to_bytes(size, "big")


def dot(a: bytes, b: bytes) -> int:
    """The sum of the products, place by place."""
    result = 0
    for x, y in zip(a, b, strict=True):
        result ^= product(x, y)
    return result


# ---- Gaussian elimination --------------------------------------------------------------------------------------


def reduced(rows: Sequence[bytes], width: int) -> tuple[list[bytes], list[int]]:
    """The rows brought to reduced form in their first `width` columns, without zero rows, and the pivots' columns."""
    left, done, pivots = list(rows), [], []
    for column in range(width):
        found = next((row for row in left if row[column]), None)
        if found is None:
            continue
        left.remove(found)
        pivot = multiple(inverse(found[column]), found)
        left = [_cleared(row, pivot, column) for row in left]
        done = [_cleared(row, pivot, column) for row in done] + [pivot]
        pivots.append(column)
    return done, pivots


def _cleared(row: bytes, pivot: bytes, column: int) -> bytes:
    return total(row, multiple(row[column], pivot)) if row[column] else row


def independent(vectors: Sequence[bytes], width: int) -> bool:
    """Whether none is a mix of the others: as many pivots as vectors."""
    return len(reduced(vectors, width)[1]) == len(vectors)


def normal(vectors: Sequence[bytes], width: int) -> bytes:
    """A vector, not 0, whose dot product with each of width - 1 independent vectors is 0.

    It is the same test as `independent`, asked once instead of for each vector that is tried: a further vector v is no
    mix of these just where dot(normal, v) isn't 0.
    """
    rows, pivots = reduced(vectors, width)
    (free,) = set(range(width)) - set(pivots)
    result = bytearray(width)
    result[free] = 1
    for row, column in zip(rows, pivots):
        result[column] = row[free]
    return bytes(result)


def inverted(matrix: Sequence[bytes]) -> list[bytes]:
    """The inverse of a square matrix with independent rows: eliminate with the unit matrix beside it."""
    size = len(matrix)
    rows, pivots = reduced([row + unit(size, i) for i, row in enumerate(matrix)], size)
    assert pivots == list(range(size)), "the vectors are not independent"
    return [row[size:] for row in rows]


def unit(size: int, place: int) -> bytes:
    return bytes(int(i == place) for i in range(size))


# ---- Nets ------------------------------------------------------------------------------------------------------


@dataclass(frozen=True)
class Fault:
    """Why bytes are refused: the fault's number and the byte at which its item begins."""

    number: int
    byte: int


@dataclass(frozen=True)
class Net:
    """A network with its rate and receivers; each link is (from, to)."""

    nodes: int
    links: tuple[tuple[int, int], ...]
    rate: int
    receivers: tuple[int, ...]
    into: tuple[tuple[int, ...], ...] = field(init=False, repr=False, compare=False)
    out_of: tuple[tuple[int, ...], ...] = field(init=False, repr=False, compare=False)

    def __post_init__(self) -> None:
        into: list[list[int]] = [[] for _ in range(self.nodes)]
        out_of: list[list[int]] = [[] for _ in range(self.nodes)]
        for k, (start, end) in enumerate(self.links):
            out_of[start].append(k)
            into[end].append(k)
        object.__setattr__(self, "into", tuple(map(tuple, into)))
        object.__setattr__(self, "out_of", tuple(map(tuple, out_of)))

    def at_hand(self, node: int) -> int:
        """How many packets a link out of the node can mix."""
        return self.rate if node == 0 else len(self.into[node])


def number(data: bytes, at: int, size: int) -> int:
    return int.from_bytes(data[at : at + size], "big")


def write_net(net: Net) -> bytes:
    parts = [b"\x01", net.nodes.to_bytes(2, "big"), len(net.links).to_bytes(2, "big")]
    parts += [end.to_bytes(2, "big") for link in net.links for end in link]
    parts.append(bytes([net.rate, len(net.receivers)]))
    parts += [node.to_bytes(2, "big") for node in net.receivers]
    return b"".join(parts)


def _link_fault(start: int, end: int, nodes: int, left: set[int]) -> int:
    """The lowest fault of a link, or 0; `left` has the nodes that an earlier link leads out of."""
    if start >= nodes or end >= nodes:
        return 2
    if end == 0 or start == end:
        return 3
    return 4 if end in left else 0


def _read_links(data: bytes, nodes: int, count: int) -> list[tuple[int, int]] | Fault:
    """The links and then the end of the links, an item without bytes."""
    links: list[tuple[int, int]] = []
    left: set[int] = set()
    for at in range(5, 5 + 4 * count, 4):
        if len(data) < at + 4:
            return Fault(1, at)
        start, end = number(data, at, 2), number(data, at + 2, 2)
        fault = _link_fault(start, end, nodes, left)
        if fault:
            return Fault(fault, at)
        links.append((start, end))
        left.add(start)
    if left - {0} - {end for _, end in links}:
        return Fault(10, 5 + 4 * count)
    return links


def _read_receivers(data: bytes, at: int, nodes: int, count: int) -> list[int] | Fault:
    """The receivers and then the end of the bytes."""
    receivers: list[int] = []
    last = 0
    for at in range(at, at + 2 * count, 2):
        if len(data) < at + 2:
            return Fault(1, at)
        node = number(data, at, 2)
        if node >= nodes:
            return Fault(2, at)
        if node <= last:
            return Fault(5, at)
        receivers.append(node)
        last = node
    return receivers if len(data) == at + 2 else Fault(1, at + 2)


def read_net(data: bytes) -> Net | Fault:
    """The net whose bytes these are, or the lowest fault of the first item that has one."""
    if len(data) < 5 or data[0] != 1:
        return Fault(1, 0)
    nodes, count = number(data, 1, 2), number(data, 3, 2)
    if not 1 <= nodes <= MAX_NODES or count > MAX_LINKS:
        return Fault(2, 0)
    links = _read_links(data, nodes, count)
    if isinstance(links, Fault):
        return links
    at = 5 + 4 * count
    if len(data) < at + 2:
        return Fault(1, at)
    rate, listening = data[at], data[at + 1]
    if not 1 <= rate <= MAX_RATE or not 1 <= listening <= MAX_RECEIVERS:
        return Fault(2, at)
    receivers = _read_receivers(data, at + 2, nodes, listening)
    if isinstance(receivers, Fault):
        return receivers
    return Net(nodes, tuple(links), rate, tuple(receivers))


# ---- Ways or a cut ---------------------------------------------------------------------------------------------


Path = list[int]


def _search(net: Net, used: list[bool], receiver: int) -> tuple[dict[int, tuple[int, int]], bool]:
    """One search: for each node reached, the node and link it was reached by (the source: itself and -1)."""
    reached = {0: (0, -1)}
    waiting = deque([0])
    while waiting:
        node = waiting.popleft()
        onward = [(net.links[k][1], k) for k in net.out_of[node] if not used[k]]
        back = [(net.links[k][0], k) for k in net.into[node] if used[k]]
        for neighbour, k in onward + back:
            if neighbour not in reached:
                reached[neighbour] = (node, k)
                waiting.append(neighbour)
    return reached, receiver in reached


def _augment(reached: dict[int, tuple[int, int]], used: list[bool], receiver: int) -> None:
    """Links along the path found become used and links back along it unused: each one changes."""
    node = receiver
    while node != 0:
        node, k = reached[node]
        used[k] = not used[k]


def _decomposed(net: Net, used: list[bool], receiver: int) -> list[Path]:
    """The used links as paths: always the used link of lowest number that isn't taken yet."""
    free = list(used)
    paths = []
    for _ in range(net.rate):
        path: Path = []
        node = 0
        while node != receiver:
            k = next(k for k in net.out_of[node] if free[k])
            free[k] = False
            path.append(k)
            node = net.links[k][1]
        paths.append(path)
    return paths


def paths_or_cut(net: Net, receiver: int) -> list[Path] | set[int]:
    """As many paths as the rate, in the order in which they are taken; or the nodes that the last search reached."""
    used = [False] * len(net.links)
    for _ in range(net.rate):
        reached, found = _search(net, used, receiver)
        if not found:
            return set(reached)
        _augment(reached, used, receiver)
    return _decomposed(net, used, receiver)


def routes(net: Net) -> list[list[Path]] | tuple[int, set[int]]:
    """The paths of all receivers in their order, or the first receiver with a cut and its cut."""
    found = []
    for receiver in net.receivers:
        answer = paths_or_cut(net, receiver)
        if isinstance(answer, set):
            return receiver, answer
        found.append(answer)
    return found


# ---- Factors and rows ------------------------------------------------------------------------------------------


@dataclass(frozen=True)
class Served:
    """A plan that serves all: coefficients for each link; for each receiver its current links and its rows."""

    coefficients: tuple[bytes, ...]
    current: tuple[tuple[int, ...], ...]
    rows: tuple[tuple[bytes, ...], ...]


@dataclass(frozen=True)
class Cut:
    """A plan that names a receiver that can't be served, and the nodes of its cut."""

    receiver: int
    nodes: frozenset[int]


Plan = Served | Cut


@dataclass
class Choice:
    """One t that was chosen: for which link, for which receiver (by its place in the order), which t."""

    link: int
    receiver: int
    t: int


class Coder:
    """Goes through the links in order and keeps, for each receiver, its current links and their vectors."""

    def __init__(self, net: Net, paths: list[list[Path]], literal: bool = False) -> None:
        self.net = net
        self.literal = literal
        self.vectors: list[bytes] = []
        self.coefficients: list[bytes] = []
        self.choices: list[Choice] = []
        # A current link is a link's number, or None while it is still the message's packet itself.
        self.current: list[list[int | None]] = [[None] * net.rate for _ in paths]
        self.basis = [[unit(net.rate, i) for i in range(net.rate)] for _ in paths]
        self.on: list[dict[int, int]] = [{k: i for i, path in enumerate(ways) for k in path} for ways in paths]

    def at_hand(self, node: int) -> list[bytes]:
        if node == 0:
            return [unit(self.net.rate, i) for i in range(self.net.rate)]
        return [self.vectors[k] for k in self.net.into[node]]

    def trial(self, node: int, receiver: int, path: int) -> int:
        """Which of the packets at hand is the current one of the path that the link lies on."""
        if node == 0:
            return path
        link = self.current[receiver][path]
        assert link is not None
        return self.net.into[node].index(link)

    def test(self, receiver: int, path: int):
        """A function that says whether a vector serves the receiver if it is put in the path's place."""
        rate = self.net.rate
        others = self.basis[receiver][:path] + self.basis[receiver][path + 1 :]
        if self.literal:
            return lambda vector: independent(others + [vector], rate)
        across = normal(others, rate)
        return lambda vector: dot(across, vector) != 0

    def step(self, k: int) -> None:
        """Chooses the coefficients of link k, and puts its vector in place."""
        rate, node = self.net.rate, self.net.links[k][0]
        hand = self.at_hand(node)
        chosen, vector = bytearray(len(hand)), bytes(rate)
        tests = []
        here = [(r, self.on[r][k]) for r in range(len(self.on)) if k in self.on[r]]
        for r, path in here:
            tests.append(self.test(r, path))
            if tests[-1](vector):
                continue
            index = self.trial(node, r, path)
            t, vector = self.lowest(vector, hand[index], tests)
            chosen[index] ^= t
            self.choices.append(Choice(k, r, t))
        assert vector == mix(chosen, hand, rate)
        self.coefficients.append(bytes(chosen))
        self.vectors.append(vector)
        for r, path in here:
            self.current[r][path] = k
            self.basis[r][path] = vector

    @staticmethod
    def lowest(vector: bytes, added: bytes, tests: list) -> tuple[int, bytes]:
        """The lowest t for which the vector plus t times what is added passes all tests, and that vector."""
        for t in range(1, 256):
            tried = total(vector, multiple(t, added))
            if all(test(tried) for test in tests):
                return t, tried
        raise AssertionError("no t serves")

    def plan(self) -> Served:
        for k in range(len(self.net.links)):
            self.step(k)
        return Served(
            tuple(self.coefficients),
            tuple(tuple(k for k in links if k is not None) for links in self.current),
            tuple(tuple(inverted(basis)) for basis in self.basis),
        )


def make_plan(net: Net) -> Plan:
    found = routes(net)
    if isinstance(found, tuple):
        return Cut(found[0], frozenset(found[1]))
    return Coder(net, found).plan()


# ---- The bytes of plans ----------------------------------------------------------------------------------------


def write_plan(plan: Plan) -> bytes:
    if isinstance(plan, Cut):
        bits = sum(1 << node for node in plan.nodes)
        return b"\x02\x02" + plan.receiver.to_bytes(2, "big") + bits.to_bytes(CUT_BYTES, "big")
    parts = [b"\x02\x01"]
    for coefficients in plan.coefficients:
        parts += [len(coefficients).to_bytes(2, "big"), coefficients]
    for current, rows in zip(plan.current, plan.rows):
        parts += [k.to_bytes(2, "big") for k in current]
        parts += rows
    return b"".join(parts)


def _read_cut(net: Net, data: bytes) -> Cut | Fault:
    if len(data) < 4 + CUT_BYTES:
        return Fault(1, 2)
    receiver, bits = number(data, 2, 2), number(data, 4, CUT_BYTES)
    if receiver >= net.nodes or bits >> net.nodes:
        return Fault(2, 2)
    if receiver not in net.receivers:
        return Fault(9, 2)
    if len(data) > 4 + CUT_BYTES:
        return Fault(1, 4 + CUT_BYTES)
    return Cut(receiver, frozenset(node for node in range(net.nodes) if bits >> node & 1))


def _read_coefficients(net: Net, data: bytes, at: int, k: int) -> bytes | Fault:
    """A link's item: its count, and as many bytes as the count says. Only what is whole is judged."""
    if len(data) < at + 2:
        return Fault(1, at)
    count = number(data, at, 2)
    if len(data) < at + 2 + count:
        return Fault(1, at)
    if count != net.at_hand(net.links[k][0]):
        return Fault(9, at)
    return data[at + 2 : at + 2 + count]


def _read_rows(net: Net, data: bytes, at: int, receiver: int) -> tuple[tuple[int, ...], tuple[bytes, ...]] | Fault:
    """A receiver's item: its current links and its rows."""
    rate = net.rate
    if len(data) < at + 2 * rate + rate * rate:
        return Fault(1, at)
    current = tuple(number(data, at + 2 * i, 2) for i in range(rate))
    if not set(current) <= set(net.into[receiver]):
        return Fault(9, at)
    begin = at + 2 * rate
    return current, tuple(data[begin + rate * j : begin + rate * (j + 1)] for j in range(rate))


def _read_served(net: Net, data: bytes) -> Served | Fault:
    at = 2
    coefficients, current, rows = [], [], []
    for k in range(len(net.links)):
        item = _read_coefficients(net, data, at, k)
        if isinstance(item, Fault):
            return item
        coefficients.append(item)
        at += 2 + len(item)
    for receiver in net.receivers:
        answer = _read_rows(net, data, at, receiver)
        if isinstance(answer, Fault):
            return answer
        current.append(answer[0])
        rows.append(answer[1])
        at += 2 * net.rate + net.rate * net.rate
    if len(data) > at:
        return Fault(1, at)
    return Served(tuple(coefficients), tuple(current), tuple(rows))


def read_plan(net: Net, data: bytes) -> Plan | Fault:
    """The plan whose bytes these are, for this net. Whether its numbers serve anyone is not looked at."""
    if len(data) < 2 or data[0] != 2 or data[1] not in (1, 2):
        return Fault(1, 0)
    return _read_served(net, data) if data[1] == 1 else _read_cut(net, data)


# ---- What plan prints ------------------------------------------------------------------------------------------


def _shown(net: Net, k: int) -> str:
    return f"{k} ({net.links[k][0]}-{net.links[k][1]})"


def cut_links(net: Net, nodes: set[int] | frozenset[int]) -> list[int]:
    return [k for k, (start, end) in enumerate(net.links) if start in nodes and end not in nodes]


def cut_text(net: Net, receiver: int, nodes: set[int] | frozenset[int]) -> str:
    links = cut_links(net, nodes)
    head = f"listener {receiver}: cut, {len(links)} lines lead out\n"
    return head + "".join(f"  {_shown(net, k)}\n" for k in links)


def plan_text(net: Net, found: list[list[Path]] | tuple[int, set[int]]) -> str:
    if isinstance(found, tuple):
        return cut_text(net, *found)
    told = []
    for receiver, paths in zip(net.receivers, found):
        told.append(f"listener {receiver}\n")
        for i, path in enumerate(paths, 1):
            told.append(f"  way {i}: {', '.join(_shown(net, k) for k in path)}\n")
    return "".join(told)


# ---- Boxes and listeners ---------------------------------------------------------------------------------------


@dataclass(frozen=True)
class Refusal:
    """A record that is refused: the number, and the line and round if the record is a packet or message at all."""

    number: int
    link: int | None = None
    round: int | None = None


@dataclass(frozen=True)
class Packet:
    """What is sent on a link in a round."""

    link: int
    round: int
    data: bytes


MESSAGE = -1  # the link over which the source gets its messages


class Node:
    """A relay, a receiver or the source, round by round: it waits for all that comes in and then ends the round."""

    def __init__(self, net: Net, plan: Served, place: int) -> None:
        self.net, self.plan, self.place = net, plan, place
        self.into = (MESSAGE,) if place == 0 else net.into[place]
        self.round = 0
        self.kept: dict[tuple[int, int], list[bytes]] = {}

    def refusal(self, link: int, round: int) -> int:
        """The lowest number for which a packet or message is refused, or 0."""
        if link not in self.into:
            return 6
        if round < self.round or (round, link) in self.kept:
            return 7
        return 8 if round > self.round + EARLY else 0

    def take(self, link: int, round: int, packets: list[bytes]) -> list[list[bytes]] | Refusal:
        """What was at hand in each round that ends now, in order; after a refusal all is as it was."""
        refused = self.refusal(link, round)
        if refused:
            return Refusal(refused, link, round)
        self.kept[round, link] = packets
        ended = []
        while all((self.round, k) in self.kept for k in self.into):
            ended.append([p for k in self.into for p in self.kept.pop((self.round, k))])
            self.round += 1
        return ended

    def sent(self, round: int, hand: list[bytes]) -> list[Packet]:
        """The packets that go out in a round, by rising link."""
        return [
            Packet(k, round, mix(self.plan.coefficients[k], hand, PACKET)) for k in self.net.out_of[self.place]
        ]

    def message(self, hand: list[bytes]) -> list[bytes]:
        """What a receiver reads: its rows over its current links; other packets are not used."""
        which = self.net.receivers.index(self.place)
        packets = [hand[self.into.index(k)] for k in self.plan.current[which]]
        return [mix(row, packets, PACKET) for row in self.plan.rows[which]]

    def record_size(self) -> int:
        return 5 + PACKET * self.net.rate if self.place == 0 else PACKET_RECORD

    def take_record(self, record: bytes) -> list[list[bytes]] | Refusal:
        """One record of the stream: at the source a message, elsewhere a packet."""
        if self.place == 0:
            if record[0] != 4:
                return Refusal(1)
            return self.take(MESSAGE, number(record, 1, 4), _packets(record[5:]))
        if record[0] != 3:
            return Refusal(1)
        return self.take(number(record, 1, 2), number(record, 3, 4), [record[7:]])


def _packets(data: bytes) -> list[bytes]:
    return [data[at : at + PACKET] for at in range(0, len(data), PACKET)]


def packet_record(packet: Packet) -> bytes:
    return b"\x03" + packet.link.to_bytes(2, "big") + packet.round.to_bytes(4, "big") + packet.data


def message_record(round: int, packets: Sequence[bytes]) -> bytes:
    return b"\x04" + round.to_bytes(4, "big") + b"".join(packets)


@dataclass
class Answer:
    """What comes of one record: the bytes that are put out, or a refusal. The last may be a short tail."""

    out: bytes = b""
    refusal: Refusal | None = None
    tail: bool = False


def stream(node: Node, data: bytes, listening: bool) -> Iterator[Answer]:
    """Record by record, what a box (or a listener) does with a stream."""
    size = node.record_size()
    for at in range(0, len(data), size):
        record = data[at : at + size]
        if len(record) < size:
            yield Answer(refusal=Refusal(1), tail=True)
            return
        before = node.round
        ended = node.take_record(record)
        if isinstance(ended, Refusal):
            yield Answer(refusal=ended)
        elif listening:
            yield Answer(b"".join(p for hand in ended for p in node.message(hand)))
        else:
            sent = [p for i, hand in enumerate(ended) for p in node.sent(before + i, hand)]
            yield Answer(b"".join(map(packet_record, sent)))


def summary(node: Node, refused: int) -> str:
    """What is told at the end of a stream: a short tail counts as refused."""
    return f"{node.round} rounds ended, {refused} refused, {len(node.kept)} kept"


# ---- Playing a whole net ---------------------------------------------------------------------------------------


def messages(net: Net, data: bytes) -> list[list[bytes]]:
    """The file as whole messages, filled up with zeros; an empty file has none."""
    size = net.rate * PACKET
    padded = data + bytes(-len(data) % size)
    return [_packets(padded[at : at + size]) for at in range(0, len(padded), size)]


def carried(net: Net, plan: Served, message: list[bytes]) -> list[bytes]:
    """What each link carries in a round: links stand in an order in which what is at hand is there already."""
    packets: list[bytes] = []
    for k, (start, _) in enumerate(net.links):
        hand = message if start == 0 else [packets[j] for j in net.into[start]]
        packets.append(mix(plan.coefficients[k], hand, PACKET))
    return packets


def read_by(net: Net, plan: Served, which: int, packets: list[bytes]) -> list[bytes]:
    """What the receiver (by its place in the order) reads from what the links carry."""
    current = [packets[k] for k in plan.current[which]]
    return [mix(row, current, PACKET) for row in plan.rows[which]]


def play(net: Net, plan: Served, data: bytes) -> tuple[list[bool], list[int]]:
    """For each receiver whether it has every message, for each link how many of its packets were not all 0."""
    has = [True] * len(net.receivers)
    counts = [0] * len(net.links)
    for message in messages(net, data):
        packets = carried(net, plan, message)
        for which in range(len(has)):
            has[which] = has[which] and read_by(net, plan, which, packets) == message
        for k, packet in enumerate(packets):
            counts[k] += any(packet)
    return has, counts


def play_text(net: Net, plan: Plan, data: bytes) -> str:
    if isinstance(plan, Cut):
        return cut_text(net, plan.receiver, plan.nodes)
    has, counts = play(net, plan, data)
    told = [f"listener {p}: has {'it' if ok else 'not'}\n" for p, ok in zip(net.receivers, has)]
    return "".join(told + [f"line {k}: {count}\n" for k, count in enumerate(counts)])


# ---- Commands --------------------------------------------------------------------------------------------------


class Refused(Exception):
    """Ends a command with a text on standard error and status 1."""


def fault_text(name: str, fault: Fault, of_plan: bool = False) -> str:
    """What is told of a file with a fault. A plan has no counts that could be out of range."""
    text = "a place that isn't there" if of_plan and fault.number == 2 else TEXTS[fault.number]
    return f"{name}: fault {fault.number} at byte {fault.byte}: {text}"


def refusal_text(refusal: Refusal) -> str:
    text = f"refused {refusal.number}: {TEXTS[refusal.number]}"
    if refusal.round is None:
        return text
    if refusal.link == MESSAGE:
        return f"{text} (round {refusal.round})"
    return f"{text} (line {refusal.link}, round {refusal.round})"


def _bytes_of(name: str) -> bytes:
    try:
        with open(name, "rb") as file:
            return file.read()
    except OSError as error:
        raise Refused(f"{name}: {error.strerror}") from error


def _net_of(name: str) -> Net:
    net = read_net(_bytes_of(name))
    if isinstance(net, Fault):
        raise Refused(fault_text(name, net))
    return net


def _plan_of(net: Net, name: str) -> Plan:
    plan = read_plan(net, _bytes_of(name))
    if isinstance(plan, Fault):
        raise Refused(fault_text(name, plan, of_plan=True))
    return plan


def _node_of(net: Net, plan: Plan, word: str, listening: bool) -> Node:
    if isinstance(plan, Cut):
        raise Refused(f"refused 9: {TEXTS[9]}")
    if not word.isdecimal() or int(word) >= net.nodes:
        raise Refused(f"refused 2: {TEXTS[2]}")
    if listening and int(word) not in net.receivers:
        raise Refused(f"refused 9: {TEXTS[9]}")
    return Node(net, plan, int(word))


def run_plan(words: list[str]) -> None:
    net = _net_of(words[0])
    found = routes(net)
    plan = Cut(found[0], frozenset(found[1])) if isinstance(found, tuple) else Coder(net, found).plan()
    with open(words[1], "wb") as file:
        file.write(write_plan(plan))
    sys.stdout.write(plan_text(net, found))


def run_stream(words: list[str], listening: bool, source: BinaryIO, sink: BinaryIO) -> None:
    net = _net_of(words[0])
    node = _node_of(net, _plan_of(net, words[1]), words[2], listening)
    name = "listen" if listening else "box"
    refused = 0
    for answer in stream(node, source.read(), listening):
        sink.write(answer.out)
        if answer.refusal:
            refused += 1
            print(f"{name}: {refusal_text(answer.refusal)}", file=sys.stderr)
    print(f"{name}: {summary(node, refused)}", file=sys.stderr)


def run_play(words: list[str]) -> None:
    net = _net_of(words[0])
    plan = _plan_of(net, words[1])
    sys.stdout.write(play_text(net, plan, _bytes_of(words[2])))


USAGE = "\n".join((__doc__ or "").splitlines()[-4:])


def main(words: list[str]) -> int:
    counts = {"plan": 2, "box": 3, "listen": 3, "play": 3}
    if not words or counts.get(words[0]) != len(words) - 1:
        print(USAGE, file=sys.stderr)
        return 1
    command, rest = words[0], words[1:]
    try:
        if command == "plan":
            run_plan(rest)
        elif command == "play":
            run_play(rest)
        else:
            run_stream(rest, command == "listen", sys.stdin.buffer, sys.stdout.buffer)
    except Refused as refused:
        print(f"{command}: {refused}", file=sys.stderr)
        return 1
    return 0


if __name__ == "__main__":
    sys.exit(main(sys.argv[1:]))
