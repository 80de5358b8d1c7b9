#!/usr/bin/env python3
"""Makes the altered Rust from the repository's text, and builds it with the Rust compiler alone.

Usage: python3 oracle/make_oracle.py PATH_TO_SRC [OUT] [--num-complex CRATES]
PATH_TO_SRC holds crates/tellegen/src/.. of eigenergy/tellegen; OUT is target/oracle.
Writes OUT/altered.rs (find and dense_islands of islands.rs, branch_admittance of ac.rs, the currents of flow_partials of sens/ac.rs, all of pf_ac.rs, changed
only as listed in CHANGES, CURRENTS and COUNTERS) and builds OUT/oracle and OUT/oracle_platform (the same with the platform's sine and cosine). None of the repository's text is kept here.
Writes OUT/uncounted.rs too, the same without COUNTERS, for the benchmark.
With --num-complex it builds OUT/oracle_num_complex too: the platform's sine and cosine, and the crate num_complex itself in place of complex.rs.
CRATES is a folder with the sources of num-complex and num-traits (Debian: librust-num-complex-dev puts them in /usr/share/cargo/registry).
"""
import argparse
import glob
import os
import re
import subprocess
import sys

HERE = os.path.dirname(os.path.abspath(__file__))

# (what, old, new): each old text stands exactly once in pf_ac.rs. Changes that document 01 makes. branch_admittance has none: it calls Complex, which is a
# stand-in, and so our sine; the list of its results is the driver's, since 02 has another list than the Rust's ybus.
CHANGES = [
    ("num_complex gives way to a stand-in", "use num_complex::Complex;\n", ""),
    ("the formulation, islands, network and solve_sparse stand in this file",
     "use crate::formulation::{AcPolar, Formulation};\nuse crate::model::islands::dense_islands;\nuse crate::model::AcNetwork;\nuse crate::solve::solve_sparse;\n", ""),
    ("a refusal gives the mismatch and the starts as numbers, not as text", "    start: AcStart,\n) -> Result<AcPfSolution, String> {", "    start: AcStart,\n) -> Result<AcPfSolution, (f64, usize)> {"),
    ("the same", "        return Err(format!(\n            \"AC power flow did not converge: best mismatch {residual:.3e} over {start_count} starts\"\n        ));", "        return Err((residual, start_count));"),
]

# The same of the currents at the ends of a branch in sens/ac.rs. What follows them there are derivatives.
CURRENTS = [
    ("a unit phasor of the derivatives is not worked out", "        let vhat_f = Complex::from_polar(1.0, self.va[f]);\n", ""),
    ("the same", "        let vhat_t = Complex::from_polar(1.0, self.va[t]);\n", ""),
]

# Observation only: counters that the solver never reads.
COUNTERS = [
    ("counts starts", "    for (vm0, va0) in starts {\n", "    for (vm0, va0) in starts {\n        met(|m| m.starts += 1);\n"),
    ("counts rounds and twelfth ones", "    for _ in 0..MAX_OUTER {\n", "    for round in 0..MAX_OUTER {\n        met(|m| { m.rounds += 1; m.twelfth += usize::from(round == MAX_OUTER - 1); });\n"),
    ("counts singular matrices", "            break; // singular Jacobian: stop at the best iterate so far", "            met(|m| m.singular += 1);\n            break; // singular Jacobian: stop at the best iterate so far"),
    ("counts unfit trials and those with a magnitude of 0", "any(|&x| x.is_nan()) {\n                alpha *= 0.5;\n                continue;", "any(|&x| x.is_nan()) {\n                met(|m| { m.unfit += 1; m.zero += usize::from(tvm.contains(&0.0)); });\n                alpha *= 0.5;\n                continue;"),
    ("counts shortened steps and fiftieth ones", "                accepted = true;\n", "                accepted = true;\n                met(|m| { m.halved += usize::from(alpha < 1.0); m.fifty += usize::from(it == MAX_ITERS - 1); });\n"),
    ("counts directions with a NaN and with an infinity", "        // Backtracking line search: accept", "        met(|m| { m.nan_step += usize::from(dx.iter().any(|x| x.is_nan())); m.inf_step += usize::from(dx.iter().any(|x| x.is_infinite())); });\n        // Backtracking line search: accept"),
    ("counts trials with a NaN, an infinite and an unchanged norm", "            let tres = inf_norm(&tr);\n", "            let tres = inf_norm(&tr);\n            met(|m| { m.nan_trial += usize::from(tres.is_nan()); m.inf_trial += usize::from(tres.is_infinite()); m.equal += usize::from(tres == residual); });\n"),
    ("counts steps that no length helped", "            break; // no descent direction reduced the mismatch: stop", "            met(|m| m.stuck += 1);\n            break; // no descent direction reduced the mismatch: stop"),
    ("counts releases at qmax", "                    converted[b] = 1;\n", "                    converted[b] = 1;\n                    met(|m| m.at_max += 1);\n"),
    ("counts releases at qmin", "                    converted[b] = -1;\n", "                    converted[b] = -1;\n                    met(|m| m.at_min += 1);\n"),
    ("counts returns", "                    reverted[b] = true;\n", "                    reverted[b] = true;\n                    met(|m| m.back += 1);\n"),
    ("counts values past a limit or a held voltage by at most the tolerance, and second returns that are not given", "            if kinds[b] == BusKind::Pv {\n", """            let past = |x: f64, tolerance: f64| (x > 0.0 && x <= tolerance, x > tolerance);
            let q = if kinds[b] == BusKind::Pv { past((q_calc[b] + net.qd[b] - qmax_bus[b]).max(qmin_bus[b] - q_calc[b] - net.qd[b]), Q_TOL) } else { (false, false) };
            let v = past((vm[b] - vm_hold[b]) * f64::from(converted[b]), V_BACK);
            met(|m| { m.q_within += usize::from(q.0); m.v_within += usize::from(v.0); m.kept += usize::from(v.1 && reverted[b]); });
            if kinds[b] == BusKind::Pv {
"""),
    ("counts typings that never settled", "    if !settled {\n", "    if !settled {\n        met(|m| m.unsettled += 1);\n"),
    ("counts NaN residuals", "        result = (vm.clone(), va.clone(), kinds.clone(), iters, residual);\n", "        result = (vm.clone(), va.clone(), kinds.clone(), iters, residual);\n        if residual.is_nan() {\n            met(|m| m.nan += 1);\n        }\n"),
]


def take(text, start, end):
    i = text.index(start)
    return text[i:text.index(end, i) + len(end)]


def changed(text, changes):
    for what, old, new in changes:
        if text.count(old) != 1:
            sys.exit(f"{text.count(old)} places for: {what}")
        text = text.replace(old, new)
    return text


def altered(src, changes):
    """The repository's part of the program."""
    islands = open(os.path.join(src, "model", "islands.rs")).read()
    ac = open(os.path.join(src, "model", "ac.rs")).read()
    sens = open(os.path.join(src, "sens", "ac.rs")).read()
    pf_ac = re.sub(r"^//!.*\n", "", changed(open(os.path.join(src, "problem", "pf_ac.rs")).read(), changes), flags=re.M)
    currents = changed(take(take(sens, "fn flow_partials", "\n    }\n"), "        let (f, t) =", "let i_t = ytf * vf + ytt * vt;\n"), CURRENTS)
    currents = "impl Solved<'_> {\n    fn ends(&self, e: usize) -> [(Complex<f64>, Complex<f64>); 2] {\n" + currents + "        [(vf, i_f), (vt, i_t)]\n    }\n}\n"
    admittance = "impl AcNetwork {\n    " + take(ac, "pub(crate) fn branch_admittance", "\n    }\n") + "}\n"
    return take(islands, "fn find(parent", "\n}\n") + take(islands, "pub(crate) fn dense_islands", "\n}\n") + admittance + currents + pf_ac


def own(name):
    return open(os.path.join(HERE, name)).read()


def write(path, numbers, part):
    with open(path, "w") as f:
        f.write("#![allow(dead_code, unused_imports, unexpected_cfgs)]\n" + own("standins.rs") + numbers + part + own("driver.rs"))


def rustc(source, out, *flags):
    subprocess.run(["rustc", "-O", "-C", "llvm-args=-fp-contract=off", *flags, "-o", out, source], check=True)
    print("built", os.path.relpath(out))


def crate(crates, name, out, *flags):
    """Builds a crate of the folder as a library."""
    found = glob.glob(os.path.join(crates, f"{name}-[0-9]*", "src", "lib.rs"))
    if len(found) != 1:
        sys.exit(f"{len(found)} sources of {name} in {crates}")
    library = os.path.join(out, f"lib{name.replace('-', '_')}.rlib")
    rustc(found[0], library, "--crate-name", name.replace("-", "_"), "--crate-type", "rlib", "--cap-lints", "allow", "--cfg", 'feature="std"', *flags)
    return library


def main():
    args = argparse.ArgumentParser(description=__doc__, formatter_class=argparse.RawDescriptionHelpFormatter)
    args.add_argument("src")
    args.add_argument("out", nargs="?", default=os.path.join(HERE, "..", "target", "oracle"))
    args.add_argument("--num-complex")
    args = args.parse_args()
    os.makedirs(args.out, exist_ok=True)
    src = os.path.join(args.src, "crates", "tellegen", "src")
    write(os.path.join(args.out, "uncounted.rs"), own("complex.rs"), altered(src, CHANGES))
    part = altered(src, CHANGES + COUNTERS)
    print(f"{len(CHANGES) + len(CURRENTS) + len(COUNTERS)} changes")
    source = os.path.join(args.out, "altered.rs")
    write(source, own("complex.rs"), part)
    rustc(source, os.path.join(args.out, "oracle"), "--edition", "2021")
    rustc(source, os.path.join(args.out, "oracle_platform"), "--edition", "2021", "--cfg", "platform_sine")
    if args.num_complex:
        source = os.path.join(args.out, "altered_num_complex.rs")
        write(source, "use num_complex::Complex;\n", part)
        traits = crate(args.num_complex, "num-traits", args.out, "--cfg", "has_i128")
        numbers = crate(args.num_complex, "num-complex", args.out, "--edition", "2018", "--extern", f"num_traits={traits}")
        rustc(source, os.path.join(args.out, "oracle_num_complex"), "--edition", "2021", "--extern", f"num_complex={numbers}", "-L", args.out)


main()
