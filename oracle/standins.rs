// What the ported Rust leans on, as document 01 says it: sine and cosine, the linear solve, the network's tables. Complex numbers are in complex.rs.
// Written for the oracle alone; no proved code takes part.
use std::cell::Cell;
use std::collections::HashMap;

// ---- sine and cosine (01, "Sine and cosine"), or the platform's with --cfg platform_sine

pub fn sin_cos(x: f64) -> (f64, f64) {
    met(|m| m.far += usize::from(x.abs() > 1024.0));
    if cfg!(platform_sine) {
        return x.sin_cos();
    }
    if x.is_nan() || x.abs() > 1024.0 {
        return (f64::NAN, f64::NAN);
    }
    let t = x * f64::from_bits(0x3FE45F306DC9C883);
    let mut k = t.floor(); // k - 0.5 <= t < k + 0.5; the differences are exact at this size
    if t - k >= 0.5 {
        k += 1.0;
    }
    let r = (x - k * f64::from_bits(0x3FF921FB54400000)) - k * f64::from_bits(0x3DD0B4611A626331);
    let z = r * r;
    let factorial = |n: u64| (1..=n).product::<u64>() as f64;
    let sum = |ns: &[u64]| {
        let coefficient = |i: usize| {
            let c = 1.0 / factorial(ns[i]);
            if i % 2 == 0 { -c } else { c }
        };
        let mut total = coefficient(ns.len() - 1);
        for i in (0..ns.len() - 1).rev() {
            total = coefficient(i) + z * total;
        }
        total
    };
    let s = r + (r * z) * sum(&[3, 5, 7, 9, 11, 13, 15]);
    let c = 1.0 + z * sum(&[2, 4, 6, 8, 10, 12, 14, 16]);
    match (k as i64).rem_euclid(4) {
        0 => (s, c),
        1 => (c, -s),
        2 => (-s, -c),
        _ => (-c, s),
    }
}

// ---- the linear solve (01, "Linear solve")

pub fn solve_sparse(dim: usize, entries: &[(usize, usize, f64)], rhs: &[f64]) -> Result<Vec<f64>, usize> {
    let mut a = vec![0.0; dim * dim];
    let mut b = rhs.to_vec();
    for &(r, c, x) in entries {
        a[r * dim + c] += x;
    }
    for col in 0..dim {
        let mut best = 0.0;
        let mut pivot = dim;
        for r in col..dim {
            let x = a[r * dim + col].abs();
            if x > best {
                best = x;
                pivot = r;
            }
        }
        if pivot == dim {
            return Err(col);
        }
        if pivot != col {
            for c in 0..dim {
                a.swap(col * dim + c, pivot * dim + c);
            }
            b.swap(col, pivot);
        }
        for r in col + 1..dim {
            let f = a[r * dim + col] / a[col * dim + col];
            for c in col..dim {
                a[r * dim + c] = a[r * dim + c] - f * a[col * dim + c];
            }
            b[r] = b[r] - f * b[col];
        }
    }
    for r in (0..dim).rev() {
        let mut x = b[r];
        for c in r + 1..dim {
            x = x - a[r * dim + c] * b[c];
        }
        b[r] = x / a[r * dim + r];
    }
    Ok(b)
}

// ---- the network's tables, with the triplets given or made of the branches by the driver

#[derive(Default)]
pub struct AcNetwork {
    pub n: usize,
    pub k: usize,
    pub pf_pv: Vec<bool>,
    pub vm_set: Vec<f64>,
    pub pd: Vec<f64>,
    pub qd: Vec<f64>,
    pub pg: Vec<f64>,
    pub qg: Vec<f64>,
    pub vm_case: Vec<f64>,
    pub va_case: Vec<f64>,
    pub slacks: Vec<usize>,
    pub va_slacks: Vec<f64>,
    pub gen_bus: Vec<usize>,
    pub qmin: Vec<f64>,
    pub qmax: Vec<f64>,
    pub br_from: Vec<usize>,
    pub br_to: Vec<usize>,
    pub g: Vec<f64>,
    pub b: Vec<f64>,
    pub g_fr: Vec<f64>,
    pub b_fr: Vec<f64>,
    pub g_to: Vec<f64>,
    pub b_to: Vec<f64>,
    pub tap: Vec<f64>,
    pub shift: Vec<f64>,
    pub sw: Vec<f64>,
    pub triplets: Vec<(usize, usize, Complex<f64>)>,
}

impl AcNetwork {
    pub fn ybus(&self) -> Vec<(usize, usize, Complex<f64>)> {
        self.triplets.clone()
    }
}

pub trait Formulation {}

pub struct AcPolar;

impl Formulation for AcPolar {}

// ---- what a run met, for counting classes of cases: observed, never read by the solver. The driver prints it, and cases.py reads the names.

#[derive(Clone, Copy, Debug, Default)]
pub struct Met {
    pub starts: usize,
    pub rounds: usize,
    pub halved: usize,
    pub unfit: usize,
    pub singular: usize,
    pub stuck: usize,
    pub at_max: usize,
    pub at_min: usize,
    pub back: usize,
    pub unsettled: usize,
    pub nan: usize,
    pub fifty: usize,
    pub nan_step: usize,
    pub inf_step: usize,
    pub nan_trial: usize,
    pub inf_trial: usize,
    pub far: usize,
    pub twelfth: usize,
    pub zero: usize,
    pub equal: usize,
    pub q_within: usize,
    pub v_within: usize,
    pub kept: usize,
}

thread_local! {
    pub static MET: Cell<Met> = Cell::new(Met::default());
}

// With --cfg uncounted nothing is counted, for the benchmark.
#[cfg(uncounted)]
pub fn met(_: impl FnOnce(&mut Met)) {}

#[cfg(not(uncounted))]
pub fn met(f: impl FnOnce(&mut Met)) {
    MET.with(|c| {
        let mut m = c.get();
        f(&mut m);
        c.set(m);
    });
}
