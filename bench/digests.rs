//! Times both digest makers beside plain scalar Rust, on the same bytes in the same run. Built and run by bench/run.
use std::time::Instant;

unsafe extern "C" {
    fn zaghmikhe_shake256(text: *const u8, n: usize, out: *mut u8, m: usize) -> bool;
    fn zaghmikhe_sha512(text: *const u8, n: usize, out: *mut u8, m: usize) -> bool;
}

const RC: [u64; 24] = [
    0x0000000000000001, 0x0000000000008082, 0x800000000000808a, 0x8000000080008000, 0x000000000000808b, 0x0000000080000001,
    0x8000000080008081, 0x8000000000008009, 0x000000000000008a, 0x0000000000000088, 0x0000000080008009, 0x000000008000000a,
    0x000000008000808b, 0x800000000000008b, 0x8000000000008089, 0x8000000000008003, 0x8000000000008002, 0x8000000000000080,
    0x000000000000800a, 0x800000008000000a, 0x8000000080008081, 0x8000000000008080, 0x0000000080000001, 0x8000000080008008,
];
const RHO: [u32; 24] = [1, 3, 6, 10, 15, 21, 28, 36, 45, 55, 2, 14, 27, 41, 56, 8, 25, 43, 62, 18, 39, 61, 20, 44];
const PI: [usize; 24] = [10, 7, 11, 17, 18, 3, 5, 16, 8, 21, 24, 4, 15, 23, 19, 13, 12, 2, 20, 14, 22, 9, 6, 1];

fn keccak_f(a: &mut [u64; 25]) {
    for rc in RC {
        let mut c = [0u64; 5];
        for x in 0..5 {
            c[x] = a[x] ^ a[x + 5] ^ a[x + 10] ^ a[x + 15] ^ a[x + 20];
        }
        for x in 0..5 {
            let d = c[(x + 4) % 5] ^ c[(x + 1) % 5].rotate_left(1);
            for y in 0..5 {
                a[x + 5 * y] ^= d;
            }
        }
        let mut last = a[1];
        for i in 0..24 {
            let next = a[PI[i]];
            a[PI[i]] = last.rotate_left(RHO[i]);
            last = next;
        }
        for y in (0..25).step_by(5) {
            let row = [a[y], a[y + 1], a[y + 2], a[y + 3], a[y + 4]];
            for x in 0..5 {
                a[y + x] = row[x] ^ (!row[(x + 1) % 5] & row[(x + 2) % 5]);
            }
        }
        a[0] ^= rc;
    }
}

fn shake256(text: &[u8], out: &mut [u8]) {
    let mut a = [0u64; 25];
    let absorb = |a: &mut [u64; 25], block: &[u8]| {
        for (lane, word) in a.iter_mut().zip(block.chunks_exact(8)) {
            *lane ^= u64::from_le_bytes(word.try_into().unwrap());
        }
        keccak_f(a);
    };
    let mut blocks = text.chunks_exact(136);
    for block in &mut blocks {
        absorb(&mut a, block);
    }
    let mut last = [0u8; 136];
    last[..blocks.remainder().len()].copy_from_slice(blocks.remainder());
    last[blocks.remainder().len()] = 0x1f;
    last[135] ^= 0x80;
    absorb(&mut a, &last);
    for (i, piece) in out.chunks_mut(136).enumerate() {
        if i > 0 {
            keccak_f(&mut a);
        }
        for (k, b) in piece.iter_mut().enumerate() {
            *b = (a[k / 8] >> (8 * (k % 8))) as u8;
        }
    }
}

fn primes() -> Vec<u64> {
    (2..420).filter(|n| (2..*n).all(|d| n % d != 0)).take(80).collect()
}

/// The first 64 bits of the fraction of a root.
fn root(n: u64, cube: bool) -> u64 {
    let (mut low, mut high) = (0u128, 1u128 << 72);
    while high - low > 1 {
        let x = (low + high) / 2;
        // compare x^2 with n·2^128, or x^3 with n·2^192, by halves that fit
        let above = if cube { cube_above(x, n) } else { square_above(x, n) };
        if above { high = x } else { low = x }
    }
    low as u64
}

fn wide_mul(a: &[u64], b: u128) -> Vec<u64> {
    let parts = [b as u64, (b >> 64) as u64];
    let mut out = vec![0u64; a.len() + 2];
    for (i, &x) in a.iter().enumerate() {
        let mut carry = 0u128;
        for (j, &y) in parts.iter().enumerate() {
            let t = x as u128 * y as u128 + out[i + j] as u128 + carry;
            out[i + j] = t as u64;
            carry = t >> 64;
        }
        let mut k = i + 2;
        while carry > 0 {
            let t = out[k] as u128 + carry;
            out[k] = t as u64;
            carry = t >> 64;
            k += 1;
        }
    }
    out
}

fn above(x: Vec<u64>, n: u64, zeros: usize) -> bool {
    let mut y = vec![0u64; zeros];
    y.push(n);
    let len = x.len().max(y.len());
    let pad = |mut v: Vec<u64>| {
        v.resize(len, 0);
        v.reverse();
        v
    };
    pad(x) > pad(y)
}

fn square_above(x: u128, n: u64) -> bool {
    above(wide_mul(&[x as u64, (x >> 64) as u64], x), n, 2)
}

fn cube_above(x: u128, n: u64) -> bool {
    above(wide_mul(&wide_mul(&[x as u64, (x >> 64) as u64], x), x), n, 3)
}

struct Sha512 {
    k: Vec<u64>,
    start: [u64; 8],
}

impl Sha512 {
    fn new() -> Self {
        let p = primes();
        let mut start = [0; 8];
        for (s, n) in start.iter_mut().zip(&p) {
            *s = root(*n, false);
        }
        Sha512 { k: p.iter().map(|n| root(*n, true)).collect(), start }
    }

    fn compress(&self, h: &mut [u64; 8], block: &[u8]) {
        let mut w = [0u64; 80];
        for (x, b) in w.iter_mut().zip(block.chunks_exact(8)) {
            *x = u64::from_be_bytes(b.try_into().unwrap());
        }
        for t in 16..80 {
            let s0 = w[t - 15].rotate_right(1) ^ w[t - 15].rotate_right(8) ^ (w[t - 15] >> 7);
            let s1 = w[t - 2].rotate_right(19) ^ w[t - 2].rotate_right(61) ^ (w[t - 2] >> 6);
            w[t] = w[t - 16].wrapping_add(s0).wrapping_add(w[t - 7]).wrapping_add(s1);
        }
        let mut v = *h;
        for t in 0..80 {
            let [a, b, c, d, e, f, g, hh] = v;
            let s1 = e.rotate_right(14) ^ e.rotate_right(18) ^ e.rotate_right(41);
            let t1 = hh.wrapping_add(s1).wrapping_add((e & f) ^ (!e & g)).wrapping_add(self.k[t]).wrapping_add(w[t]);
            let s0 = a.rotate_right(28) ^ a.rotate_right(34) ^ a.rotate_right(39);
            let t2 = s0.wrapping_add((a & b) ^ (a & c) ^ (b & c));
            v = [t1.wrapping_add(t2), a, b, c, d.wrapping_add(t1), e, f, g];
        }
        for (x, y) in h.iter_mut().zip(v) {
            *x = x.wrapping_add(y);
        }
    }

    fn stretched(&self, text: &[u8], out: &mut [u8]) {
        let mut h = self.start;
        let mut blocks = text.chunks_exact(128);
        for block in &mut blocks {
            self.compress(&mut h, block);
        }
        for (i, piece) in out.chunks_mut(64).enumerate() {
            let mut end = blocks.remainder().to_vec();
            end.extend_from_slice(&(i as u32).to_be_bytes());
            end.push(0x80);
            while end.len() % 128 != 112 {
                end.push(0);
            }
            end.extend_from_slice(&((text.len() as u128 + 4) * 8).to_be_bytes());
            let mut last = h;
            for block in end.chunks_exact(128) {
                self.compress(&mut last, block);
            }
            let bytes: Vec<u8> = last.iter().flat_map(|x| x.to_be_bytes()).collect();
            piece.copy_from_slice(&bytes[..piece.len()]);
        }
    }
}

fn best(mut f: impl FnMut()) -> f64 {
    (0..5).map(|_| { let t = Instant::now(); f(); t.elapsed().as_secs_f64() }).fold(f64::MAX, f64::min)
}

fn report(name: &str, what: &str, ours: f64, plain: f64) {
    println!("{name} {what}: proved {:.0} ms, plain Rust {:.0} ms, ratio {:.2}", ours * 1e3, plain * 1e3, ours / plain);
}

fn main() {
    let text: Vec<u8> = (0..64 << 20).map(|i: u32| (i.wrapping_mul(2654435761) >> 24) as u8).collect();
    let sha = Sha512::new();
    let (mut a, mut b) = (vec![0u8; 100], vec![0u8; 100]);
    let (mut long_a, mut long_b) = (vec![0u8; 64 << 20], vec![0u8; 64 << 20]);
    let ours = best(|| assert!(unsafe { zaghmikhe_shake256(text.as_ptr(), text.len(), a.as_mut_ptr(), a.len()) }));
    let plain = best(|| shake256(&text, &mut b));
    assert_eq!(a, b);
    report("shake256", "takes 64 MiB", ours, plain);
    let ours = best(|| assert!(unsafe { zaghmikhe_shake256(text.as_ptr(), 99, long_a.as_mut_ptr(), long_a.len()) }));
    let plain = best(|| shake256(&text[..99], &mut long_b));
    assert!(long_a == long_b);
    report("shake256", "gives 64 MiB", ours, plain);
    let ours = best(|| assert!(unsafe { zaghmikhe_sha512(text.as_ptr(), text.len(), a.as_mut_ptr(), a.len()) }));
    let plain = best(|| sha.stretched(&text, &mut b));
    assert_eq!(a, b);
    report("sha512", "takes 64 MiB", ours, plain);
    let ours = best(|| assert!(unsafe { zaghmikhe_sha512(text.as_ptr(), 99, long_a.as_mut_ptr(), long_a.len()) }));
    let plain = best(|| sha.stretched(&text[..99], &mut long_b));
    assert!(long_a == long_b);
    report("sha512", "gives 64 MiB", ours, plain);
}
