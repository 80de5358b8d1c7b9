// Times the static library of `report` against the altered Rust: `driver INPUT..`. Both are called here, in turn, on the same bytes.
use std::arch::asm;
use std::hint::black_box;
use std::time::Instant;

extern "C" {
    // `report::report`: a slice comes as its place and its length.
    fn report(text: *const u8, length: usize, out: *mut u8, space: *mut f64) -> usize;
}

// What a run of ours is lent. It is cleared once and then used for every run.
struct Lent {
    out: Box<[u8; 10240]>,
    space: Box<[f64; 6144]>,
}

fn ours(text: &[u8], lent: &mut Lent) -> usize {
    unsafe { report(text.as_ptr(), text.len(), lent.out.as_mut_ptr(), lent.space.as_mut_ptr()) }
}

// ---- time

const REPEATS: usize = 400;
const SPAN: f64 = 1e-3;

fn seconds(runs: usize, f: &mut dyn FnMut()) -> f64 {
    let start = Instant::now();
    for _ in 0..runs {
        f();
    }
    start.elapsed().as_secs_f64() / runs as f64
}

// The shortest time of a run of each, over spans of about SPAN that take turns.
fn shortest(a: &mut dyn FnMut(), b: &mut dyn FnMut()) -> (f64, f64) {
    let runs = |f: &mut dyn FnMut()| (SPAN / seconds(3, f)).max(1.0) as usize;
    let (a_runs, b_runs) = (runs(a), runs(b));
    let mut best = (f64::INFINITY, f64::INFINITY);
    for _ in 0..REPEATS {
        best = (best.0.min(seconds(a_runs, a)), best.1.min(seconds(b_runs, b)));
    }
    best
}

// ---- stack

const WORDS: usize = 1 << 17;
const PAINT: u64 = 0x5AA5_C33C_9669_F00F;

extern "C" fn call(f: *mut &mut dyn FnMut()) {
    unsafe { (*f)() }
}

// The bytes of stack that f writes to: f runs on a painted stack, and what is no longer painted was needed.
fn stack(mut f: &mut dyn FnMut()) -> usize {
    let mut painted = vec![PAINT; WORDS];
    let top = (painted.as_mut_ptr_range().end as usize & !15) as *mut u64;
    unsafe {
        asm!("mov r14, rsp", "mov rsp, r12", "call r13", "mov rsp, r14", in("r12") top, in("r13") call as *const () as usize, in("rdi") &mut f, out("r14") _,
             clobber_abi("C"));
    }
    let low = painted.iter().position(|&word| word != PAINT).unwrap();
    assert!(low > 0, "the painted stack is too small");
    top as usize - &painted[low] as *const u64 as usize
}

fn main() {
    let mut lent = Lent { out: Box::new([0; 10240]), space: Box::new([0.0; 6144]) };
    println!("{:<12} {:>6} {:>10} {:>10} {:>6} {:>11} {:>11}", "input", "bytes", "ours us", "Rust us", "ratio", "ours stack", "Rust stack");
    for path in std::env::args().skip(1) {
        let name = path.rsplit('/').next().unwrap().trim_end_matches(".case");
        let text = std::fs::read(&path).unwrap();
        let n = ours(&text, &mut lent);
        assert_eq!(&lent.out[..n], altered::answer(&text).as_bytes(), "{name}: the answers differ");
        let mut a = || {
            black_box(ours(black_box(&text), &mut lent));
        };
        let a_stack = stack(&mut a);
        let mut b = || {
            black_box(altered::answer(black_box(&text)));
        };
        let b_stack = stack(&mut b);
        let (a_time, b_time) = shortest(&mut a, &mut b);
        println!("{name:<12} {:>6} {:>10.2} {:>10.2} {:>6.2} {a_stack:>11} {b_stack:>11}", text.len(), a_time * 1e6, b_time * 1e6, a_time / b_time);
    }
}
