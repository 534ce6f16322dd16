"""Looks for a small net in whose plan the lowest t is a given number somewhere: find_small.py T [SECONDS] [SEED]

Nets are drawn; each in which T is chosen loses lines and listeners one by one, as long as T is still chosen. The net
with the fewest lines is printed, in the form in which vectors.py keeps it.
"""
from __future__ import annotations

import random
import sys
import time
from typing import Iterator

import draw_nets
from mivondocs import Coder, Net, read_net, routes, write_net


def chooses(net: Net, t: int) -> bool:
    """Whether the net is one of ours, all are served, and t is chosen somewhere."""
    if not isinstance(read_net(write_net(net)), Net):
        return False
    found = routes(net)
    if isinstance(found, tuple):
        return False
    coder = Coder(net, found)
    coder.plan()
    return any(choice.t == t for choice in coder.choices)


def smaller(net: Net) -> Iterator[Net]:
    """The net without one of its receivers, or without one of its links."""
    if len(net.receivers) > 1:
        for i in range(len(net.receivers)):
            yield Net(net.nodes, net.links, net.rate, net.receivers[:i] + net.receivers[i + 1 :])
    for k in range(len(net.links)):
        yield Net(net.nodes, net.links[:k] + net.links[k + 1 :], net.rate, net.receivers)


def shrunk(net: Net, t: int) -> Net:
    while True:
        following = next((other for other in smaller(net) if chooses(other, t)), None)
        if following is None:
            return renamed(net)
        net = following


def renamed(net: Net) -> Net:
    """The same net without places that are no end of a line; the order of places, so of listeners, is kept."""
    left = sorted({0} | {end for link in net.links for end in link} | set(net.receivers))
    name = {old: new for new, old in enumerate(left)}
    links = tuple((name[a], name[b]) for a, b in net.links)
    return Net(len(left), links, net.rate, tuple(name[p] for p in net.receivers))


def shown(net: Net) -> str:
    links = " ".join(f"{a}-{b}" for a, b in net.links)
    return f'net_of("{links}", {net.rate}, "{" ".join(map(str, net.receivers))}")'


def main() -> None:
    t = int(sys.argv[1])
    seconds = float(sys.argv[2]) if len(sys.argv) > 2 else 20
    seed = int(sys.argv[3]) if len(sys.argv) > 3 else 1
    best: Net | None = None
    end = time.monotonic() + seconds
    index = 0
    while time.monotonic() < end:
        r = random.Random(f"small {seed} {index}")
        index += 1
        net = r.choice([draw_nets.combination, draw_nets.shared])(r)
        if len(net.links) > 60 or not chooses(net, t):
            continue
        net = shrunk(net, t)
        if best is None or len(net.links) < len(best.links):
            best = net
            print(f"draw {index}: {len(net.links)} lines, {shown(net)}", flush=True)
    print(f"{index} nets drawn")


if __name__ == "__main__":
    main()
