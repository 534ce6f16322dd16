// How fast the proved `mix` is, beside the same loop in plain Rust: MB of packets taken in per second.
use std::hint::black_box;
use std::time::Instant;

type Packet = [u8; 1024];

unsafe extern "C" {
    fn proved_mix(out: *mut Packet, factors: *const u8, factor_count: usize, packets: *const Packet, packet_count: usize);
}

fn plain_mul(a: u8, b: u8) -> u8 {
    let mut sum = 0;
    let mut power = a;
    for i in 0..8 {
        if b >> i & 1 == 1 {
            sum ^= power;
        }
        power = if power < 128 { power << 1 } else { power << 1 ^ 0x1b };
    }
    sum
}

fn plain_mix(factors: &[u8], packets: &[Packet]) -> Packet {
    let mut out = [0; 1024];
    for (factor, packet) in factors.iter().zip(packets) {
        for (to, from) in out.iter_mut().zip(packet) {
            *to ^= plain_mul(*factor, *from);
        }
    }
    out
}

fn proved(factors: &[u8], packets: &[Packet]) -> Packet {
    let mut out = [0; 1024];
    // SAFETY: the pointers and counts are those of live slices.
    unsafe { proved_mix(&mut out, factors.as_ptr(), factors.len(), packets.as_ptr(), packets.len()) };
    out
}

fn megabytes_per_second(mix: fn(&[u8], &[Packet]) -> Packet, factors: &[u8], packets: &[Packet]) -> f64 {
    let turns = 2000;
    let start = Instant::now();
    for _ in 0..turns {
        black_box(mix(black_box(factors), black_box(packets)));
    }
    (turns * packets.len() * 1024) as f64 / start.elapsed().as_secs_f64() / 1e6
}

fn main() {
    let factors: Vec<u8> = (0..32u32).map(|j| (j * 37 + 2) as u8).collect();
    let packets: Vec<Packet> = (0..32u32).map(|j| std::array::from_fn(|k| (k as u32 * 91 + j * 13) as u8)).collect();
    assert_eq!(proved(&factors, &packets), plain_mix(&factors, &packets));
    // The best of interleaved rounds, so that other work on the machine counts little.
    let mut best = [0f64; 2];
    for _ in 0..15 {
        best[0] = best[0].max(megabytes_per_second(proved, &factors, &packets));
        best[1] = best[1].max(megabytes_per_second(plain_mix, &factors, &packets));
    }
    println!("mix of 32 packets, proved:     {:8.0} MB/s", best[0]);
    println!("mix of 32 packets, plain Rust: {:8.0} MB/s", best[1]);
}
