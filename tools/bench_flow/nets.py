"""Writes nets to compare `plan` with search.cpp on: nets.py FOLDER COUNT SEED

Layered nets, nets with many parallel lines, sparse nets with listeners that aren't reached, and three of the largest size.
"""
import random
import struct
import sys


def net(places, lines, rate, listeners):
    body = bytes([1]) + struct.pack(">HH", places, len(lines))
    body += b"".join(struct.pack(">HH", *line) for line in lines)
    body += bytes([rate, len(listeners)])
    return body + b"".join(struct.pack(">H", p) for p in listeners)


# Lines in the order of the places that they leave; places are numbered by a permutation, the source first.
def drawn(r, places, count, rate, listeners, reach):
    name = [0] + r.sample(range(1, places), places - 1)
    fed, lines = {0}, []
    for p in range(places - 1):
        if p not in fed:
            continue
        for _ in range(max(1, count // places + r.randint(-1, 1)) + (rate if p == 0 else 0)):
            q = min(places - 1, p + r.randint(1, reach))
            lines.append((name[p], name[q]))
            fed.add(q)
    lines = lines[:1024]
    into = {t for _, t in lines} | {0}
    lines = [(f, t) for f, t in lines if f in into]
    return net(places, lines, rate, sorted(r.sample(range(1, places), listeners)))


def main():
    folder, count, seed = sys.argv[1], int(sys.argv[2]), int(sys.argv[3])
    r = random.Random(seed)
    for i in range(count):
        places = r.randint(2, 40)
        sizes = (places, r.randint(1, 6) * places, r.randint(1, 3), r.randint(1, min(8, places - 1)), r.choice([2, 4, 40]))
        open(f"{folder}/{i:05}.net", "wb").write(drawn(r, *sizes))
    for i in range(3):
        lines = [(0, q) for q in range(1, 17) for _ in range(2)]
        for q in range(17, 137):
            lines += [(p, q) for p in sorted(r.sample(range(max(1, q - 24), q), 4))]
        for q in range(192, 256):
            lines += [(p, q) for p in sorted(r.sample(range(80, 137), 8))]
        open(f"{folder}/big{i}.net", "wb").write(net(256, lines, 8, range(192, 256)))


main()
