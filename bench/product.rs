//! Times A·S + E mod 32768 at n = 640 and c = 8, with the rows of A given, beside a plain Rust loop. Built and run by bench/run.
use std::hint::black_box;
use std::time::Instant;

unsafe extern "C" {
    fn zaghmikhe_multiply_row(
        row: *const u16, n: usize, columns: *const u16, k: usize, errors: *const u16, m: usize, out: *mut u16, c: usize,
    ) -> bool;
}

const N: usize = 640;
const C: usize = 8;

fn numbers(n: usize) -> Vec<u16> {
    let mut x = 1u32;
    (0..n).map(|_| { x = x.wrapping_mul(1664525).wrapping_add(1013904223); (x >> 17) as u16 }).collect()
}

fn proved(a: &[u16], columns: &[u16], e: &[u16], out: &mut [u16]) {
    for ((row, errors), line) in a.chunks_exact(N).zip(e.chunks_exact(C)).zip(out.chunks_exact_mut(C)) {
        let done = unsafe {
            zaghmikhe_multiply_row(row.as_ptr(), N, columns.as_ptr(), columns.len(), errors.as_ptr(), C, line.as_mut_ptr(), C)
        };
        assert!(done);
    }
}

fn plain(a: &[u16], columns: &[u16], e: &[u16], out: &mut [u16]) {
    for ((row, errors), line) in a.chunks_exact(N).zip(e.chunks_exact(C)).zip(out.chunks_exact_mut(C)) {
        for (l, x) in line.iter_mut().enumerate() {
            let column = &columns[l * N..(l + 1) * N];
            let sum = row.iter().zip(column).fold(0u16, |s, (r, c)| s.wrapping_add(r.wrapping_mul(*c)));
            *x = sum.wrapping_add(errors[l]) & 32767;
        }
    }
}

fn best(mut f: impl FnMut()) -> f64 {
    (0..200).map(|_| { let t = Instant::now(); f(); t.elapsed().as_secs_f64() }).fold(f64::MAX, f64::min)
}

fn main() {
    let (a, columns, e) = (numbers(N * N), numbers(N * C), numbers(N * C));
    let (mut ours, mut theirs) = (vec![0; N * C], vec![0; N * C]);
    let t = best(|| proved(black_box(&a), black_box(&columns), black_box(&e), &mut ours));
    let u = best(|| plain(black_box(&a), black_box(&columns), black_box(&e), &mut theirs));
    assert_eq!(ours, theirs);
    println!("A·S + E, n 640, c 8: proved {:.0} us, plain Rust {:.0} us, ratio {:.2}", t * 1e6, u * 1e6, t / u);
}
