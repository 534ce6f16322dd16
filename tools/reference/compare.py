"""Compares the programs with the reference on drawn nets, damaged nets, damaged plans and streams of packets.

    compare.py [--bin DIR] [--seed S] [--nets N] [--damaged N] [--runs N] [--keep DIR] [--all]

What is compared: the exit status, what is printed, the bytes of the plan file, what is put out, and what is refused and
why. Programs that are not in DIR are skipped, and the last lines say so; with --all a skipped part is a failure. The
inputs of each difference are kept in the folder that --keep names.
"""
from __future__ import annotations

import argparse
import os
import random
import re
import shutil
import subprocess
import sys
import tempfile
import time
from dataclasses import dataclass, field

import draw_nets
from mivondocs import (
    MESSAGE,
    Answer,
    Coder,
    Cut,
    Fault,
    Net,
    Node,
    Plan,
    Served,
    fault_text,
    make_plan,
    plan_text,
    play_text,
    read_net,
    read_plan,
    refusal_text,
    routes,
    stream,
    summary,
    write_net,
    write_plan,
)
from vectors import DAMAGED_CUT, DAMAGED_SERVED, NAMED, READ_CUT, READ_SERVED

PROGRAMS = ("plan", "box", "listen", "play")
SHOWN_DIFFERENCES = 5


@dataclass
class Bench:
    """Where the programs and the files of one comparison are, and what came of it so far."""

    programs: str
    work: str
    keep: str
    plan_files: bool = True
    counts: dict[str, int] = field(default_factory=dict)
    differences: int = 0
    skipped: list[str] = field(default_factory=list)

    def file(self, name: str, data: bytes) -> str:
        path = os.path.join(self.work, name)
        with open(path, "wb") as file:
            file.write(data)
        return path

    def run(self, program: str, *words: str, given: bytes = b"") -> subprocess.CompletedProcess[bytes]:
        command = [os.path.join(self.programs, program), *words]
        return subprocess.run(command, input=given, capture_output=True, timeout=120)

    def count(self, what: str) -> None:
        self.counts[what] = self.counts.get(what, 0) + 1

    def differs(self, label: str, what: str, wanted: object, got: object) -> None:
        """Tells a difference and keeps the files that led to it."""
        self.differences += 1
        if self.differences > SHOWN_DIFFERENCES:
            return
        kept = os.path.join(self.keep, f"{self.differences} {label}".replace(" ", "_"))
        shutil.copytree(self.work, kept, dirs_exist_ok=True)
        print(f"DIFFERS: {label}: {what}; files in {kept}")
        print(f"  reference: {_short(wanted)}\n  program:   {_short(got)}")

    def same(self, label: str, what: str, wanted: object, got: object) -> bool:
        if wanted != got:
            self.differs(label, what, wanted, got)
        return wanted == got


def _short(value: object) -> str:
    text = repr(value)
    return text if len(text) <= 600 else f"{text[:400]} .. {text[-150:]} ({len(text)} characters)"


# ---- plan ------------------------------------------------------------------------------------------------------


def plan_and_text(net: Net) -> tuple[Plan, str]:
    found = routes(net)
    plan = Cut(found[0], frozenset(found[1])) if isinstance(found, tuple) else Coder(net, found).plan()
    return plan, plan_text(net, found)


def plan_file(bench: Bench) -> bytes | None:
    """The plan file that was written, or None; it is taken away for the next run."""
    path = os.path.join(bench.work, "plan")
    if not os.path.exists(path):
        return None
    with open(path, "rb") as file:
        data = file.read()
    os.remove(path)
    return data


def compare_plan(bench: Bench, label: str, data: bytes) -> None:
    """The program `plan` on the bytes of a net, whole or damaged."""
    net_name = bench.file("net", data)
    got = bench.run("plan", net_name, os.path.join(bench.work, "plan"))
    written = plan_file(bench)
    net = read_net(data)
    if isinstance(net, Fault):
        bench.count(f"nets with fault {net.number}")
        bench.same(label, "fault", f"plan: {fault_text(net_name, net)}\n", got.stderr.decode(errors="replace"))
        bench.same(label, "status, output and plan of a refused net", (1, b"", None), (got.returncode, got.stdout, written))
        return
    plan, text = plan_and_text(net)
    bench.count("nets with a cut" if isinstance(plan, Cut) else "nets served")
    bench.same(label, "status and errors", (0, b""), (got.returncode, got.stderr))
    bench.same(label, "text", text, got.stdout.decode(errors="replace"))
    if bench.plan_files:
        bench.same(label, "plan file", write_plan(plan).hex(), None if written is None else written.hex())


def probe_plan_files(bench: Bench) -> None:
    """Whether `plan` writes plan files at all, so that a program that doesn't yet isn't told wrong for each net."""
    bench.run("plan", bench.file("net", write_net(NAMED["one line"])), os.path.join(bench.work, "plan"))
    bench.plan_files = plan_file(bench) is not None
    if not bench.plan_files:
        bench.skipped.append("plan files (plan writes none)")


def compare_plans(bench: Bench, seed: int, nets: int, damaged: int) -> None:
    probe_plan_files(bench)
    for name, net in NAMED.items():
        compare_plan(bench, f"plan {name}", write_net(net))
    for name, data in draw_nets.at_the_limits(seed):
        compare_plan(bench, f"plan {name}", data)
    for name, net in draw_nets.all_nets(seed, nets):
        compare_plan(bench, f"plan {seed} {name}", write_net(net))
    for index in range(damaged):
        r = random.Random(f"damaged {seed} {index}")
        data = draw_nets.damaged(r, write_net(draw_nets.drawn(seed, index)))
        compare_plan(bench, f"damaged net {seed} {index}", data)


# ---- box and listen --------------------------------------------------------------------------------------------


def scrambled(r: random.Random, plan: Served) -> Served:
    """A plan with drawn factors and rows: it serves nobody, but every product of bytes comes up."""
    return Served(
        tuple(r.randbytes(len(c)) for c in plan.coefficients),
        plan.current,
        tuple(tuple(r.randbytes(len(row)) for row in rows) for rows in plan.rows),
    )


def refusal_pattern(program: str, answer: Answer) -> str:
    """What a line on standard error must match: whole where the wording is fixed, else by its number."""
    refusal = answer.refusal
    assert refusal is not None
    if answer.tail:
        return rf"{program}: .*\b1\b.*"
    if refusal.link is None or refusal.link == MESSAGE:
        return rf"{program}: refused {refusal.number}\b.*"
    return re.escape(f"{program}: {refusal_text(refusal)}")


def compare_refusals(bench: Bench, label: str, program: str, node: Node, answers: list[Answer], errors: bytes) -> None:
    wanted = [refusal_pattern(program, answer) for answer in answers if answer.refusal]
    wanted.append(re.escape(f"{program}: {summary(node, len(wanted))}"))
    got = errors.decode(errors="replace").splitlines()
    for answer in answers:
        if answer.refusal:
            bench.count("short tails" if answer.tail else f"records refused with {answer.refusal.number}")
    if len(wanted) != len(got) or not all(re.fullmatch(w, g) for w, g in zip(wanted, got)):
        bench.differs(label, "what is refused", wanted, got)


def compare_stream(bench: Bench, label: str, program: str, net: Net, plan: Served, place: int, given: bytes) -> None:
    """`box` or `listen` on a stream. The status is compared where nothing is refused."""
    words = (bench.file("net", write_net(net)), bench.file("plan", write_plan(plan)), str(place))
    bench.file("given", given)
    got = bench.run(program, *words, given=given)
    node = Node(net, plan, place)
    answers = list(stream(node, given, program == "listen"))
    bench.count(f"streams through {program}")
    bench.same(label, f"{program} {place}: output", b"".join(a.out for a in answers), got.stdout)
    compare_refusals(bench, label, program, node, answers, got.stderr)
    if not any(answer.refusal for answer in answers):
        bench.same(label, f"{program} {place}: status", 0, got.returncode)


def compare_streams(bench: Bench, program: str, seed: int, runs: int) -> None:
    for index in range(runs):
        r = random.Random(f"{program} {seed} {index}")
        net = draw_nets.drawn(seed, r.randrange(10**6))
        plan = make_plan(net)
        label = f"{program} {seed} {index}"
        if isinstance(plan, Cut):
            compare_cut_refused(bench, label, program, net, plan)
            continue
        plan = scrambled(r, plan) if r.random() < 0.5 else plan
        place = r.choice(net.receivers) if program == "listen" else r.randrange(net.nodes)
        rounds = r.randint(0, 6)
        given = draw_nets.message_stream(r, net, rounds) if place == 0 else draw_nets.packet_stream(r, net, place, rounds)
        compare_stream(bench, label, program, net, plan, place, given)
        compare_place(bench, label, program, net, plan, r)


def compare_cut_refused(bench: Bench, label: str, program: str, net: Net, plan: Cut) -> None:
    """A plan of kind 2 is refused with 9; the words around the number are free."""
    words = (bench.file("net", write_net(net)), bench.file("plan", write_plan(plan)), str(plan.receiver))
    got = bench.run(program, *words)
    bench.count(f"cuts refused by {program}")
    bench.same(label, "status and output for a cut", (1, b""), (got.returncode, got.stdout))
    if not re.search(rb"\b9\b", got.stderr.replace(words[0].encode(), b"").replace(words[1].encode(), b"")):
        bench.differs(label, "a cut is refused with 9", 9, got.stderr)


def compare_place(bench: Bench, label: str, program: str, net: Net, plan: Served, r: random.Random) -> None:
    """A place that isn't there, or for `listen` one that is no listener: status 1 and no output."""
    wrong = [net.nodes, 256, 65536, "x", "-1", ""]
    if program == "listen":
        wrong += [p for p in range(net.nodes) if p not in net.receivers]
    words = (bench.file("net", write_net(net)), bench.file("plan", write_plan(plan)), str(r.choice(wrong)))
    got = bench.run(program, *words)
    bench.count(f"places refused by {program}")
    bench.same(label, f"status and output for place {words[2]!r}", (1, b""), (got.returncode, got.stdout))


# ---- Damaged plans ---------------------------------------------------------------------------------------------


def compare_plan_read(bench: Bench, label: str, program: str, net: Net, data: bytes) -> None:
    """A program on a damaged plan: the fault, or that there is none."""
    plan_name = bench.file("plan", data)
    last = bench.file("message", b"") if program == "play" else str(net.receivers[0])
    got = bench.run(program, bench.file("net", write_net(net)), plan_name, last)
    plan = read_plan(net, data)
    if isinstance(plan, Fault):
        bench.count(f"plans with fault {plan.number}")
        begin = f"{program}: {fault_text(plan_name, plan, of_plan=True)}"
        if not got.stderr.decode(errors="replace").startswith(begin):
            bench.differs(label, "fault", begin, got.stderr)
        bench.same(label, "status and output of a refused plan", (1, b""), (got.returncode, got.stdout))
        return
    bench.count("damaged plans that are read")
    refused = isinstance(plan, Cut) and program != "play"
    bench.same(label, "status", 1 if refused else 0, got.returncode)


def compare_damaged_plans(bench: Bench, program: str, seed: int, damaged: int) -> None:
    tables = ((DAMAGED_SERVED, "nine lines, h 2"), (DAMAGED_CUT, "nine lines, h 3"))
    for rows, name in tables:
        for text, _, _, why in rows:
            compare_plan_read(bench, f"{program} {why}", program, NAMED[name], bytes.fromhex(text))
    for known, name in ((READ_SERVED, "nine lines, h 2"), (READ_CUT, "nine lines, h 3")):
        for text, why in known:
            compare_plan_read(bench, f"{program} {why}", program, NAMED[name], bytes.fromhex(text))
    for index in range(damaged):
        r = random.Random(f"damaged plan {program} {seed} {index}")
        net = draw_nets.drawn(seed, index)
        data = draw_nets.damaged(r, write_plan(make_plan(net)))
        compare_plan_read(bench, f"damaged plan {program} {seed} {index}", program, net, data)


# ---- play ------------------------------------------------------------------------------------------------------


def compare_play(bench: Bench, label: str, net: Net, plan: Plan, data: bytes) -> None:
    words = (bench.file("net", write_net(net)), bench.file("plan", write_plan(plan)), bench.file("message", data))
    got = bench.run("play", *words)
    bench.count("nets played")
    bench.same(label, "status and errors", (0, b""), (got.returncode, got.stderr))
    bench.same(label, "text", play_text(net, plan, data), got.stdout.decode(errors="replace"))


def some_factor_changed(r: random.Random, plan: Served) -> Served:
    """One factor of a link is another, so that some receivers have it and some, likely, don't."""
    links = [k for k, c in enumerate(plan.coefficients) if c]
    if not links:
        return plan
    k = r.choice(links)
    changed = bytearray(plan.coefficients[k])
    changed[r.randrange(len(changed))] ^= r.randint(1, 255)
    return Served(plan.coefficients[:k] + (bytes(changed),) + plan.coefficients[k + 1 :], plan.current, plan.rows)


def compare_plays(bench: Bench, seed: int, runs: int) -> None:
    for index in range(runs):
        r = random.Random(f"play {seed} {index}")
        net = draw_nets.drawn(seed, r.randrange(10**6))
        plan = make_plan(net)
        if isinstance(plan, Served) and r.random() < 0.4:
            plan = some_factor_changed(r, plan)
        compare_play(bench, f"play {seed} {index}", net, plan, draw_nets.message_file(r, net))
    r = random.Random(f"play largest {seed}")
    for net in draw_nets.largest(seed) + [draw_nets.largest_with_cut(seed)]:
        compare_play(bench, f"play largest {seed} {net.rate}", net, make_plan(net), r.randbytes(5000))


# ---- All of it -------------------------------------------------------------------------------------------------


def words_of() -> argparse.Namespace:
    parser = argparse.ArgumentParser(description=(__doc__ or "").splitlines()[0])
    parser.add_argument("--bin", default="bin", help="the folder with the programs")
    parser.add_argument("--seed", type=int, default=1)
    parser.add_argument("--nets", type=int, default=2000, help="how many nets are drawn for plan")
    parser.add_argument("--damaged", type=int, default=2000, help="how many damaged nets, and damaged plans for each program")
    parser.add_argument("--runs", type=int, default=500, help="how many runs of box, of listen and of play")
    parser.add_argument("--keep", default="", help="where the files of differences are kept (a new folder if not given)")
    parser.add_argument("--all", action="store_true", help="a part that is skipped is a failure")
    return parser.parse_args()


def compare_all(bench: Bench, words: argparse.Namespace) -> None:
    for program in PROGRAMS:
        if not os.access(os.path.join(bench.programs, program), os.X_OK):
            bench.skipped.append(f"{program} (not in {bench.programs})")
        elif program == "plan":
            compare_plans(bench, words.seed, words.nets, words.damaged)
        else:
            if program == "play":
                compare_plays(bench, words.seed, words.runs)
            else:
                compare_streams(bench, program, words.seed, words.runs)
            compare_damaged_plans(bench, program, words.seed, words.damaged)


def main() -> int:
    words = words_of()
    keep = words.keep or tempfile.mkdtemp(prefix="differences.")
    start = time.monotonic()
    with tempfile.TemporaryDirectory() as work:
        bench = Bench(os.path.abspath(words.bin), work, keep)
        compare_all(bench, words)
    if not words.keep and not os.listdir(keep):
        os.rmdir(keep)
    for what, number in sorted(bench.counts.items()):
        print(f"{what}: {number}")
    for what in bench.skipped:
        print(f"SKIPPED: {what}")
    failed = bench.differences > 0 or (words.all and bool(bench.skipped)) or not bench.counts
    verdict = f"{bench.differences} differences" if bench.differences else "nothing was compared" if not bench.counts else "the same"
    print(f"seed {words.seed}, {time.monotonic() - start:.0f} s: {verdict}")
    return int(failed)


if __name__ == "__main__":
    sys.exit(main())
