#!/bin/sh
# Measures the proved `mix` beside a loop in plain Rust, in one run: tools/bench_mix/run.sh
# It builds in a temporary folder, with a crate there that gives `mix` a C name.
set -e
here=$(cd "$(dirname "$0")" && pwd)
work=$(mktemp -d)
trap 'rm -rf "$work"' EXIT
mkdir -p "$work/crates/proved_mix/src"
for crate in gf gf_bytes; do
    mkdir "$work/crates/$crate"
    for part in src specs proofs; do
        cp -r "$here/../../crates/$crate/$part" "$work/crates/$crate/"
    done
done
printf 'gf:\ngf_bytes: gf\nproved_mix staticlib: gf_bytes gf\n' > "$work/crates.txt"
cat > "$work/crates/proved_mix/src/lib.rt" <<'RATTLE'
// `mix` under a C name.
#![tactic(auto)]

use gf_bytes::{Packet, mix};

#[unsafe(no_mangle)]
pub extern "C" fn proved_mix(out: &mut Packet, factors: &[u8], packets: &[Packet]) {
    *out = mix(factors, packets);
}
RATTLE
cd "$work/crates/proved_mix"
rt lib > build.log 2>&1 || { cat build.log; exit 1; }
rustc --edition 2024 -C opt-level=3 -L out -l static=proved_mix -o bench "$here/bench.rs"
./bench
