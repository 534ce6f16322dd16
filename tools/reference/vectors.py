"""Nets with their plans, and damaged plans with their faults, as tables for checks: vectors.py [FOLDER]

Small nets are printed with the bytes of net and plan in hex. Of the largest nets the SHA-256 of net and plan is
printed; with FOLDER the bytes of these nets and plans are written there. Every row of the tables of damaged plans can
be checked by hand with the layout that is printed above it.
"""
from __future__ import annotations

import hashlib
import os
import sys

import draw_nets
from mivondocs import Cut, Net, make_plan, write_net, write_plan


def net_of(links: str, rate: int, receivers: str, nodes: int = 0) -> Net:
    """A net from text as in 0-1 0-2; as many nodes as are named, or more if told."""
    pairs = [tuple(int(end) for end in link.split("-")) for link in links.split()]
    listening = tuple(int(node) for node in receivers.split())
    named = max([end for pair in pairs for end in pair] + list(listening)) + 1
    return Net(max(nodes, named), tuple((a, b) for a, b in pairs), rate, listening)


NINE_LINES = "0-1 0-2 1-3 1-5 2-3 2-6 3-4 4-5 4-6"

NAMED = {
    "nine lines, h 2": net_of(NINE_LINES, 2, "5 6"),
    "nine lines, h 3": net_of(NINE_LINES, 3, "5 6"),
    "nine lines, h 1": net_of(NINE_LINES, 1, "5 6"),
    "one line": net_of("0-1", 1, "1"),
    "two lines": net_of("0-1 0-1", 2, "1"),
    "three lines, the last on no way": net_of("0-1 0-1 0-1", 2, "1"),
    # Listener 11 takes the lines from 1 and 9. The first way to 15 (by 1, 5, 7, 9) stands in the way of both, and for the
    # second the detour by 3, 6, 8, 10 is shorter than going back: line 14 carries something that 11 has no use for.
    "a line beside the ways of a listener, not 0": net_of(
        "0-1 0-2 0-3 1-5 1-11 2-4 3-6 4-7 5-7 6-8 7-9 8-10 9-11 9-15 10-11 11-12 12-13 13-14 14-15", 2, "11 15"
    ),
    "a listener that no line reaches": net_of("0-1", 1, "2"),
    "no line at all": net_of("", 1, "1"),
    "t is 2 at the source": net_of("0-2 0-1 0-3 0-3 3-1 1-2", 2, "1 2 3"),
    "t is 2 at an inner place": net_of("0-2 0-2 2-4 0-1 0-1 2-3 1-3 3-4", 2, "1 3 4"),
    "a factor by two steps": net_of("0-4 4-5 0-6 6-7 4-1 0-3 6-1 3-5 3-2 0-2 3-7", 2, "1 2 5 7"),
    # Found by drawing `crossing` nets and taking away what can go as long as the ways still change if from a place the
    # lines back are tried before the lines onward, or the lines back by falling number. Drawn nets show that seldom.
    "lines onward before lines back": net_of("0-8 8-9 0-4 4-5 8-3 3-7 0-1 7-6 4-2 1-9 2-6 9-6 9-5 5-6", 3, "6"),
    "lines back by rising number": net_of("0-1 0-4 0-3 1-2 3-2 4-2 1-6 2-5 2-5 4-6 6-5", 3, "5"),
    # Found by `find_small.py 3 30 1` (draw 2078 of 3605): the drawn net with the fewest lines after lines and listeners
    # were taken away one by one as long as a 3 was still chosen.
    "t is 3": net_of("0-4 0-6 4-6 0-1 6-1 6-2 0-2 0-5 1-3 2-3 5-7 2-7", 2, "1 2 3 6 7"),
}

def net_by_rule(nodes: int, rate: int, count: int, step: int) -> Net:
    """Into each place as many lines as there are packets, from places before it: no listener can have a cut.

    The last place listens, and so does each one that lies `step` before a listener, `count` in all.
    """
    links = [(p - 1 - j * (p % 5 + 1) % p, p) for p in range(1, nodes) for j in range(rate)]
    return Net(nodes, tuple(links), rate, tuple(nodes - 1 - step * i for i in reversed(range(count))))


# Of the largest size, and made by a rule that any program can follow.
BY_RULE = [(33, 32, 32, 1), (65, 16, 64, 1), (256, 4, 64, 4)]

NINE_LINES_PLAN = (
    "0201" "00020100" "00020001" "000101" "000101" "000101" "000101" "00020101" "000101" "000101"
    "0003000701000101" "0008000501010001"
)
NINE_LINES_CUT = "0202" "0005" + "00" * 31 + "01"

Row = tuple[str, int, int, str]


def put(text: str, at: int, new: str) -> str:
    """The bytes with those from `at` on overwritten."""
    return text[: 2 * at] + new + text[2 * at + len(new) :]


def front(text: str, count: int) -> str:
    return text[: 2 * count]


def _cut_short(text: str, rows: list[tuple[int, int]]) -> list[Row]:
    """Rows (length, byte at which the item begins that is then cut short)."""
    return [(front(text, length), 1, byte, f"only {length} bytes") for length, byte in rows]


_S, _C = NINE_LINES_PLAN, NINE_LINES_CUT

# Where the items begin: the head 0; lines 0 to 8 at 2, 6, 10, 13, 16, 19, 22, 26, 29; listeners at 32 and 40; end 48.
DAMAGED_SERVED: list[Row] = [
    *_cut_short(_S, [(0, 0), (1, 0), (2, 2), (3, 2), (4, 2), (5, 2), (6, 6), (7, 6), (8, 6), (9, 6), (10, 10)]),
    *_cut_short(_S, [(12, 10), (13, 13), (16, 16), (19, 19), (21, 19), (22, 22), (25, 22), (26, 26), (29, 29)]),
    *_cut_short(_S, [(31, 29), (32, 32), (33, 32), (36, 32), (39, 32), (40, 40), (44, 40), (47, 40)]),
    (put(_S, 0, "01"), 1, 0, "the first byte is that of a net"),
    (put(_S, 0, "03"), 1, 0, "the first byte is that of a packet"),
    (put(_S, 1, "00"), 1, 0, "kind 0"),
    (put(_S, 1, "03"), 1, 0, "kind 3"),
    (put(_S, 1, "ff"), 1, 0, "kind 255"),
    (_S + "00", 1, 48, "one byte left over"),
    (_S + _S, 1, 48, "the plan twice"),
    (put(_S, 2, "0001"), 9, 2, "line 0 has 1 factor instead of 2"),
    (put(_S, 2, "0000"), 9, 2, "line 0 has no factor"),
    (put(_S, 2, "0003"), 9, 2, "line 0 has 3 factors"),
    (put(_S, 2, "002c"), 9, 2, "line 0 has 44 factors, just as many as there are bytes"),
    (put(_S, 2, "002d"), 1, 2, "line 0 has 45 factors, one more than there are bytes"),
    (put(_S, 2, "0200"), 1, 2, "the count's bytes the wrong way round: 512 factors, not there"),
    (put(_S, 2, "ffff"), 1, 2, "line 0 has 65,535 factors, not there"),
    (front(put(_S, 2, "0003"), 6), 1, 2, "line 0 has 3 factors, of which 2 are there"),
    (front(put(_S, 2, "0001"), 5), 9, 2, "line 0 has 1 factor, and nothing follows"),
    (put(_S, 10, "0002"), 9, 10, "line 2 has 2 factors instead of 1"),
    (put(_S, 22, "0001"), 9, 22, "line 6 has 1 factor instead of 2"),
    (put(_S, 29, "0011"), 9, 29, "line 8 has 17 factors, all there"),
    (put(_S, 29, "0012"), 1, 29, "line 8 has 18 factors, one more than there are bytes"),
    (put(put(_S, 10, "0000"), 2, "0003"), 9, 2, "two lines with a wrong count: the first is told"),
    (put(_S, 32, "0002"), 9, 32, "listener 5 has line 2, which goes to 3"),
    (put(_S, 34, "0008"), 9, 32, "listener 5 has line 8, which goes to 6"),
    (put(_S, 32, "0009"), 9, 32, "listener 5 has line 9, and there are 9 lines"),
    (put(_S, 34, "0700"), 9, 32, "the line's bytes the wrong way round"),
    (put(_S, 40, "ffff"), 9, 40, "listener 6 has line 65,535"),
    (put(_S, 42, "0003"), 9, 40, "listener 6 has line 3, which goes to 5"),
    (front(put(_S, 32, "0002"), 39), 1, 32, "listener 5 has line 2, and its rows are cut short"),
    (front(put(_S, 32, "0002"), 40), 9, 32, "listener 5 has line 2, and nothing follows its rows"),
    (put(_S, 32, "0002") + "00", 9, 32, "listener 5 has line 2, and a byte is left over"),
]

# The same net at h 3: seven places, listeners 5 and 6. The head 0, listener and bits 2, end 36.
DAMAGED_CUT: list[Row] = [
    *_cut_short(_C, [(0, 0), (1, 0), (2, 2), (3, 2), (4, 2), (5, 2), (20, 2), (35, 2)]),
    (_C + "00", 1, 36, "one byte left over"),
    (put(_C, 1, "03"), 1, 0, "kind 3"),
    (put(_C, 0, "01"), 1, 0, "the first byte is that of a net"),
    (put(_C, 2, "0007"), 2, 2, "place 7 is not there"),
    (put(_C, 2, "0500"), 2, 2, "the listener's bytes the wrong way round"),
    (put(_C, 2, "0004"), 9, 2, "place 4 is no listener"),
    (put(_C, 2, "0000"), 9, 2, "the source is no listener"),
    (put(_C, 35, "81"), 2, 2, "a bit for place 7, which is not there"),
    (put(_C, 34, "01"), 2, 2, "a bit for place 8"),
    (put(_C, 4, "80"), 2, 2, "a bit for place 255"),
    (put(_C, 4, "01"), 2, 2, "the bits with the low byte first: a bit for place 248"),
    (put(put(_C, 2, "0004"), 35, "81"), 2, 2, "no listener, and a bit for place 7: the lower number"),
    (put(put(_C, 2, "0007"), 35, "81"), 2, 2, "place 7 is not there, and a bit for it"),
    (front(put(_C, 2, "0007"), 35), 1, 2, "place 7 is not there, and the bits are cut short"),
    (put(_C, 2, "0004") + "00", 9, 2, "no listener, and a byte is left over"),
    (_S, 9, 2, "the plan for h 2: 2 factors instead of 3"),
]

# Plans that are read although they serve nobody or name no cut: whether a plan is right is not the reader's matter.
READ_SERVED: list[tuple[str, str]] = [
    (_S, "the plan itself"),
    (put(_S, 4, "0000"), "line 0 has other factors"),
    (put(_S, 34, "0003"), "listener 5 has line 3 twice"),
    (put(_S, 36, "00000000"), "rows of zeros"),
    (_C, "a cut for a net that can be served"),
]
READ_CUT: list[tuple[str, str]] = [
    (_C, "the plan itself"),
    (put(_C, 2, "0006"), "the other listener"),
    (put(_C, 35, "00"), "no place in the cut"),
    (put(_C, 35, "7f"), "every place in the cut"),
]


# ---- Printing --------------------------------------------------------------------------------------------------


def print_net(name: str, net: Net) -> None:
    links = " ".join(f"{a}-{b}" for a, b in net.links)
    print(f"{name}: {net.nodes} places; {links or 'no lines'}; h {net.rate}; listeners {' '.join(map(str, net.receivers))}")
    print(f"  net  {write_net(net).hex()}")
    plan = make_plan(net)
    print(f"  plan {write_plan(plan).hex()}")
    if not isinstance(plan, Cut):
        print(f"  factors {' '.join(c.hex() or '-' for c in plan.coefficients)}")
    print()


def print_damaged(title: str, rows: list[Row]) -> None:
    print(f"{title}, {len(rows)} rows: fault, byte, plan, why")
    for text, number, byte, why in rows:
        print(f"  {number:2} {byte:3} {text or '-'}  ({why})")
    print()


def print_read(title: str, rows: list[tuple[str, str]]) -> None:
    print(f"{title}: plan, what it is")
    for text, what in rows:
        print(f"  {text}  ({what})")
    print()


def fnv(data: bytes) -> int:
    """FNV-1a of 64 bits."""
    value = 0xCBF29CE484222325
    for byte in data:
        value = (value ^ byte) * 0x100000001B3 % 2**64
    return value


def print_by_rule(nodes: int, rate: int, count: int, step: int) -> None:
    net = net_by_rule(nodes, rate, count, step)
    data, plan = write_net(net), write_plan(make_plan(net))
    print(f"by rule: {nodes} places, {len(net.links)} lines, h {rate}, {count} listeners, each {step} behind the last")
    print(f"  net  {len(data)} bytes, FNV-1a {fnv(data):#x}")
    print(f"  plan {len(plan)} bytes, FNV-1a {fnv(plan):#x}")


def print_largest(net: Net, folder: str | None) -> None:
    data, plan = write_net(net), write_plan(make_plan(net))
    kind = {1: "served", 2: "cut"}[plan[1]]
    print(f"largest, h {net.rate}: {net.nodes} places, {len(net.links)} lines, {len(net.receivers)} listeners, {kind}")
    print(f"  net  {len(data)} bytes, SHA-256 {hashlib.sha256(data).hexdigest()}")
    print(f"  plan {len(plan)} bytes, SHA-256 {hashlib.sha256(plan).hexdigest()}")
    if folder:
        os.makedirs(folder, exist_ok=True)
        for end, content in (("net", data), ("plan", plan)):
            with open(f"{folder}/largest_{net.rate}_{kind}.{end}", "wb") as file:
                file.write(content)


def main() -> None:
    for name, net in NAMED.items():
        print_net(name, net)
    print_damaged("Damaged plans for nine lines, h 2", DAMAGED_SERVED)
    print_damaged("Damaged plans for nine lines, h 3", DAMAGED_CUT)
    print_read("Plans that are read for nine lines, h 2", READ_SERVED)
    print_read("Plans that are read for nine lines, h 3", READ_CUT)
    for numbers in BY_RULE:
        print_by_rule(*numbers)
    for net in draw_nets.largest() + [draw_nets.largest_with_cut()]:
        print_largest(net, sys.argv[1] if len(sys.argv) > 1 else None)


if __name__ == "__main__":
    main()
