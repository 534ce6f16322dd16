"""Holds the reference to values worked out by hand, and to what plans must do, on drawn nets: selftest.py [COUNT] [SEED]"""
from __future__ import annotations

import random
import sys
import time

import draw_nets
from mivondocs import (
    MESSAGE,
    PACKET,
    PACKET_RECORD,
    Coder,
    Cut,
    Fault,
    Net,
    Node,
    Plan,
    Served,
    carried,
    cut_links,
    inverse,
    make_plan,
    message_record,
    messages,
    play,
    product,
    read_by,
    read_net,
    read_plan,
    routes,
    stream,
    write_net,
    write_plan,
)
from vectors import DAMAGED_CUT, DAMAGED_SERVED, NAMED, NINE_LINES_PLAN, READ_CUT, READ_SERVED


def slow_product(a: int, b: int) -> int:
    """The product by shifts, for all pairs against the table of logarithms."""
    result = 0
    while b:
        if b & 1:
            result ^= a
        a = a << 1 ^ (0x11B if a & 0x80 else 0)
        b >>= 1
    return result


def check_bytes() -> None:
    assert all(product(a, b) == slow_product(a, b) for a in range(256) for b in range(256))
    assert all(product(a, inverse(a)) == 1 for a in range(1, 256))
    assert product(83, 202) == 1 and product(2, 128) == 27


def check_known() -> None:
    plans = {name: make_plan(net) for name, net in NAMED.items()}
    assert write_plan(plans["nine lines, h 2"]).hex() == NINE_LINES_PLAN
    cut = plans["nine lines, h 3"]
    assert isinstance(cut, Cut) and cut.receiver == 5 and cut.nodes == {0}
    wanted = {
        "t is 2 at the source": "0100 0101 0201 0001 0100 0100",
        "t is 2 at an inner place": "0100 0001 0100 0101 0001 0102 0100 0100",
        "a factor by two steps": "0100 01 0101 01 01 0103 01 01 01 0001 01",
        "nine lines, h 2": "0100 0001 01 01 01 01 0101 01 01",
        "one line": "01",
        "two lines": "0100 0001",
    }
    beside = plans["a line beside the ways of a listener, not 0"]
    assert isinstance(beside, Served) and beside.current[0] == (4, 12) and any(beside.coefficients[14])
    for name, text in wanted.items():
        plan = plans[name]
        assert isinstance(plan, Served) and " ".join(c.hex() for c in plan.coefficients) == text, name


def check_damaged() -> None:
    for rows, net in ((DAMAGED_SERVED, NAMED["nine lines, h 2"]), (DAMAGED_CUT, NAMED["nine lines, h 3"])):
        for text, number, byte, why in rows:
            fault = read_plan(net, bytes.fromhex(text))
            assert isinstance(fault, Fault) and (fault.number, fault.byte) == (number, byte), (why, fault)
    for known, net in ((READ_SERVED, NAMED["nine lines, h 2"]), (READ_CUT, NAMED["nine lines, h 3"])):
        for text, what in known:
            plan = read_plan(net, bytes.fromhex(text))
            assert not isinstance(plan, Fault) and write_plan(plan).hex() == text, what


def check_plan(net: Net, plan: Plan, r: random.Random) -> None:
    """A cut has the source, not the receiver, and fewer links out than the rate; else every receiver reads."""
    assert read_plan(net, write_plan(plan)) == plan
    if isinstance(plan, Cut):
        assert 0 in plan.nodes and plan.receiver not in plan.nodes and len(cut_links(net, plan.nodes)) < net.rate
        return
    message = [r.randbytes(PACKET) for _ in range(net.rate)]
    packets = carried(net, plan, message)
    for which in range(len(net.receivers)):
        assert read_by(net, plan, which, packets) == message


def play_in_any_order(net: Net, plan: Served, data: bytes, r: random.Random) -> tuple[list[bool], list[int]]:
    """What `play` says, by nodes that get packets in a drawn order under the source's rule. Nothing may be refused."""
    wanted = messages(net, data)
    nodes = [Node(net, plan, place) for place in range(net.nodes)]
    waiting_for = [node for node in nodes if node.place != 0 and node.into]
    got: dict[int, list[bytes]] = {place: [] for place in net.receivers}
    counts = [0] * len(net.links)
    under_way: list[tuple[int, int, int, list[bytes]]] = []
    begun = 0
    while True:
        if begun < len(wanted) and all(node.round > begun - 3 for node in waiting_for):
            under_way.append((0, MESSAGE, begun, wanted[begun]))
            begun += 1
        if not under_way:
            break
        place, link, round, packets = under_way.pop(r.randrange(len(under_way)))
        node = nodes[place]
        before = node.round
        ended = node.take(link, round, packets)
        assert isinstance(ended, list), ended
        for i, hand in enumerate(ended):
            if place in got:
                got[place] += node.message(hand)
            for packet in node.sent(before + i, hand):
                counts[packet.link] += any(packet.data)
                under_way.append((net.links[packet.link][1], packet.link, packet.round, [packet.data]))
    assert begun == len(wanted)
    whole = [packet for message in wanted for packet in message]
    return [got[place] == whole for place in net.receivers], counts


def check_records(net: Net, plan: Served, r: random.Random) -> None:
    """A message goes as records through a box at each place, and comes out at the listeners as it went in."""
    wanted = [[r.randbytes(PACKET) for _ in range(net.rate)] for _ in range(3)]
    given = {place: b"" for place in range(net.nodes)}
    given[0] = b"".join(message_record(i, message) for i, message in enumerate(wanted))
    places = [0] + [end for k, (_, end) in enumerate(net.links) if k == net.into[end][-1]]
    for place in places:
        if place in net.receivers:
            out = [answer.out for answer in stream(Node(net, plan, place), given[place], listening=True)]
            assert b"".join(out) == b"".join(packet for message in wanted for packet in message)
        for answer in stream(Node(net, plan, place), given[place], listening=False):
            assert answer.refusal is None
            for at in range(0, len(answer.out), PACKET_RECORD):
                record = answer.out[at : at + PACKET_RECORD]
                given[net.links[int.from_bytes(record[1:3], "big")][1]] += record


def check_net(net: Net, r: random.Random, tally: dict[str, int]) -> None:
    assert read_net(write_net(net)) == net
    plan = make_plan(net)
    check_plan(net, plan, r)
    tally["cuts" if isinstance(plan, Cut) else "served"] += 1
    if isinstance(plan, Cut):
        return
    found = routes(net)
    assert isinstance(found, list)
    literal = Coder(net, found, literal=True)
    assert literal.plan() == plan
    top = max((choice.t for choice in literal.choices), default=0)
    tally[f"t up to {top}"] = tally.get(f"t up to {top}", 0) + 1
    if len(net.links) <= 30:
        data = draw_nets.message_file(r, net)
        answer = play(net, plan, data)
        assert all(answer[0]) and answer == play_in_any_order(net, plan, data, r)
        check_records(net, plan, r)
        tally["played"] += 1


def main() -> None:
    count = int(sys.argv[1]) if len(sys.argv) > 1 else 500
    seed = int(sys.argv[2]) if len(sys.argv) > 2 else 1
    check_bytes()
    check_known()
    check_damaged()
    r = random.Random(seed)
    tally = {"served": 0, "cuts": 0, "played": 0}
    for net in NAMED.values():
        check_net(net, r, tally)
    start = time.monotonic()
    for index in range(count):
        check_net(draw_nets.drawn(seed, index), r, tally)
    for name, number in sorted(tally.items()):
        print(f"{name}: {number}")
    print(f"all as it should be, {time.monotonic() - start:.1f} s for {count} drawn nets")


if __name__ == "__main__":
    main()
