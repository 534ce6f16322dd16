#!/bin/sh
# Compares `plan` with a plain C++ search on the same nets: what they print, byte for byte, and how long they take.
# tools/bench_flow/run.sh [COUNT] [SEED]; needs g++ and python3, and bin/plan (./build).
set -e
here=$(cd "$(dirname "$0")" && pwd)
work=$(mktemp -d)
trap 'rm -rf "$work"' EXIT
mkdir "$work/nets"
python3 "$here/nets.py" "$work/nets" "${1:-1000}" "${2:-1}"
g++ -O2 -o "$work/search" "$here/search.cpp"
python3 - "$here/../../bin/plan" "$work" <<'PYTHON'
import glob, subprocess, sys, time

plan, work = sys.argv[1], sys.argv[2]
nets = sorted(glob.glob(work + "/nets/*.net"))
cuts = 0
for net in nets:
    mine = subprocess.run([plan, net, work + "/plan"], capture_output=True)
    other = subprocess.run([work + "/search", net], capture_output=True)
    if mine.returncode != 0 or mine.stdout != other.stdout:
        sys.exit(f"differs: {net}")
    cuts += b"cut" in mine.stdout.split(b"\n")[0]
print(f"{len(nets)} nets, {cuts} with a cut: the same")


def best(words):
    times = []
    for _ in range(30):
        start = time.perf_counter()
        subprocess.run(words, stdout=subprocess.DEVNULL)
        times.append(time.perf_counter() - start)
    return min(times) * 1000


for net in nets:
    if "/big" in net:
        print(f"{net.split('/')[-1]}: plan {best([plan, net, work + '/plan']):.1f} ms, C++ {best([work + '/search', net]):.1f} ms, true {best(['true']):.1f} ms (whole processes, best of 30)")
PYTHON
