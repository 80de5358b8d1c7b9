
// ---- the driver: case texts in, the solve program's answers out. The text is read by rules written here from documents 01 and 02 a second time.

use std::io::{Read, Write};

// Request 2 of document 02: digits count from the first that isn't zero, on either side of the point, and zeros alone count none. The value is that of all
// digits over the power of ten of all decimals.
fn real(field: &[u8]) -> Option<f64> {
    let (minus, rest) = match field.first() {
        Some(b'-') => (true, &field[1..]),
        _ => (false, field),
    };
    let (whole, decimals) = match rest.iter().position(|&b| b == b'.') {
        Some(i) => (&rest[..i], Some(&rest[i + 1..])),
        None => (rest, None),
    };
    let digits = |s: &[u8]| !s.is_empty() && s.iter().all(u8::is_ascii_digit);
    if !digits(whole) || decimals.is_some_and(|d| !digits(d)) {
        return None;
    }
    let decimals = decimals.unwrap_or(&[]);
    let counted: Vec<u8> = whole.iter().chain(decimals).copied().skip_while(|&b| b == b'0').collect();
    if counted.len() > 15 || decimals.len() > 22 {
        return None;
    }
    let n = counted.iter().fold(0u64, |n, &b| n * 10 + u64::from(b - b'0'));
    let power = 10u128.pow(decimals.len() as u32); // at most 10^22, the last that is an exact double
    let v = n as f64 / power as f64;
    Some(if minus { -v } else { v })
}

fn bus(field: &[u8]) -> Option<usize> {
    let fits = (1..=3).contains(&field.len()) && field.iter().all(u8::is_ascii_digit) && (field.len() == 1 || field[0] != b'0');
    fits.then(|| field.iter().fold(0, |n, &b| n * 10 + usize::from(b - b'0')))
}

enum Field {
    Kind(bool),
    Real(f64),
    Bus(usize),
}

// What each section's fields are: k a kind, r a real, o a real or ?, b a bus; and how many rows it may have.
type Section = (u8, &'static [u8], usize);
const BUSES: Section = (b'B', b"krrrrroo", 32);
const SLACKS: Section = (b'R', b"br", 32);
const GENERATORS: Section = (b'G', b"brr", 32);
const LINES: Section = (b'L', b"bb", 64);
const TRIPLETS: Section = (b'Y', b"bbrr", 256);
const BRANCHES: Section = (b'K', b"bbrrrrrrrrr", 64);

// An edition of the case text: the letters of a flat and of a case start, what a body may hold, its sections.
struct Edition {
    flat: u8,
    case: u8,
    alphabet: &'static [u8],
    sections: &'static [Section],
}
const FIRST: Edition = Edition { flat: b'F', case: b'C', alphabet: b"\n -.0123456789?BRGLYVQ", sections: &[BUSES, SLACKS, GENERATORS, LINES, TRIPLETS] };
const SECOND: Edition = Edition { flat: b'f', case: b'c', alphabet: b"\n -.0123456789?BRGLYVQK", sections: &[BUSES, SLACKS, GENERATORS, BRANCHES] };

// Request 3 of document 02: the byte 32 from the end decides.
fn edition(text: &[u8]) -> &'static Edition {
    let decides = text.len().checked_sub(32).map(|at| text[at]);
    if [Some(SECOND.flat), Some(SECOND.case)].contains(&decides) { &SECOND } else { &FIRST }
}

fn field(want: u8, text: &[u8]) -> Option<Field> {
    match want {
        b'k' => match text {
            b"V" => Some(Field::Kind(true)),
            b"Q" => Some(Field::Kind(false)),
            _ => None,
        },
        b'b' => bus(text).map(Field::Bus),
        b'o' if text == b"?" => Some(Field::Real(f64::NAN)),
        _ => real(text).map(Field::Real),
    }
}

fn read(text: &[u8]) -> Result<(AcNetwork, AcStart), (u8, usize)> {
    let edition = edition(text);
    let groups = edition.sections.len() + 1;
    if text.len() < 6 * groups + 2 {
        return Err((1, text.len()));
    }
    if text.len() > 32768 {
        return Err((1, 32768));
    }
    let t = text.len() - (6 * groups + 2);
    let trailer = &text[t..];
    let mut starts = Vec::new();
    for i in 0..groups {
        let part = &trailer[1 + 6 * i..7 + 6 * i];
        if part[0] != b' ' || !part[1..].iter().all(u8::is_ascii_digit) {
            return Err((2, t));
        }
        starts.push(part[1..].iter().fold(0usize, |n, &b| n * 10 + usize::from(b - b'0')));
    }
    let start = match trailer[0] {
        letter if letter == edition.flat => AcStart::Flat,
        letter if letter == edition.case => AcStart::Case,
        _ => return Err((2, t)),
    };
    if trailer.last() != Some(&b'\n') || starts[0] != 0 || starts.last() != Some(&t) || starts.windows(2).any(|w| w[1] < w[0]) {
        return Err((2, t));
    }
    if let Some(i) = text[..t].iter().position(|b| !edition.alphabet.contains(b)) {
        return Err((3, i));
    }
    let mut rows: Vec<Vec<Vec<Field>>> = Vec::new();
    for (s, &(letter, wants, most)) in edition.sections.iter().enumerate() {
        let mut here = Vec::new();
        let mut at = starts[s];
        while at < starts[s + 1] {
            if here.len() == most {
                return Err((6, at));
            }
            let Some(end) = text[at..starts[s + 1]].iter().position(|&b| b == b'\n').map(|i| at + i) else {
                return Err((4, at));
            };
            let parts: Vec<&[u8]> = text[at..end].split(|&b| b == b' ').collect();
            if parts[0] != [letter] || parts.len() != wants.len() + 1 || parts.iter().any(|p| p.is_empty()) {
                return Err((4, at));
            }
            let mut fields = Vec::new();
            let mut place = at + 2;
            for (part, &want) in parts[1..].iter().zip(wants) {
                fields.push(field(want, part).ok_or((5, place))?);
                place += part.len() + 1;
            }
            here.push(fields);
            at = end + 1;
        }
        rows.push(here);
    }
    let r = |f: &Field| if let Field::Real(x) = f { *x } else { unreachable!() };
    let b = |f: &Field| if let Field::Bus(x) = f { *x } else { unreachable!() };
    let mut net = AcNetwork { n: rows[0].len(), k: rows[2].len(), ..AcNetwork::default() };
    for f in &rows[0] {
        net.pf_pv.push(matches!(f[0], Field::Kind(true)));
        net.vm_set.push(r(&f[1]));
        net.pd.push(r(&f[2]));
        net.qd.push(r(&f[3]));
        net.pg.push(r(&f[4]));
        net.qg.push(r(&f[5]));
        net.vm_case.push(r(&f[6]));
        net.va_case.push(r(&f[7]));
    }
    for f in &rows[1] {
        net.slacks.push(b(&f[0]));
        net.va_slacks.push(r(&f[1]));
    }
    for f in &rows[2] {
        net.gen_bus.push(b(&f[0]));
        net.qmin.push(r(&f[1]));
        net.qmax.push(r(&f[2]));
    }
    for f in &rows[3] {
        net.br_from.push(b(&f[0]));
        net.br_to.push(b(&f[1]));
    }
    if let Some(triplets) = rows.get(4) {
        net.triplets = triplets.iter().map(|f| (b(&f[0]), b(&f[1]), Complex::new(r(&f[2]), r(&f[3])))).collect();
    } else {
        for f in &rows[3] {
            net.g.push(r(&f[2]));
            net.b.push(r(&f[3]));
            net.g_fr.push(r(&f[4]));
            net.b_fr.push(r(&f[5]));
            net.g_to.push(r(&f[6]));
            net.b_to.push(r(&f[7]));
            net.tap.push(r(&f[8]));
            net.shift.push(r(&f[9]));
            net.sw.push(r(&f[10]));
        }
    }
    Ok((net, start))
}

fn printed(x: f64) -> String {
    if x.is_nan() { "nan".to_owned() } else { format!("{:016x}", x.to_bits()) }
}

// Request 1 of document 02: 8, 11, 12, 13 in that order, each with the lowest row of its table that names a missing bus; a branch and a triplet also name
// their first field at fault.
fn missing_bus(net: &AcNetwork) -> Option<String> {
    let missing = |b: &usize| *b >= net.n;
    let row = |number: u8, column: &[usize]| column.iter().position(missing).map(|row| format!("refused {number} {row}\n"));
    let field = |number: u8, pairs: Vec<[usize; 2]>| {
        let at = pairs.iter().position(|pair| pair.iter().any(missing))?;
        Some(format!("refused {number} {at} {}\n", pairs[at].iter().position(missing)?))
    };
    row(8, &net.slacks)
        .or_else(|| row(11, &net.gen_bus))
        .or_else(|| field(12, net.br_from.iter().zip(&net.br_to).map(|(&f, &t)| [f, t]).collect()))
        .or_else(|| field(13, net.triplets.iter().map(|&(i, k, _)| [i, k]).collect()))
}

// Request 3 of document 02: the lowest row with a tap not above zero (14) or from a bus to itself (15), 14 first in a row.
fn bad_branch(net: &AcNetwork) -> Option<String> {
    net.tap.iter().zip(net.br_from.iter().zip(&net.br_to)).enumerate().find_map(|(row, (&tap, (from, to)))| {
        let number = if !(tap > 0.0) { 14 } else if from == to { 15 } else { return None };
        Some(format!("refused {number} {row}\n"))
    })
}

// Request 3 of document 02: one diagonal entry per bus in bus order, each summed from zero in branch order; then the two entries of each branch.
fn list(net: &AcNetwork) -> Vec<(usize, usize, Complex<f64>)> {
    let mut diagonal = vec![Complex::new(0.0, 0.0); net.n];
    let mut between = Vec::new();
    for e in 0..net.tap.len() {
        let (ff, ft, tf, tt) = net.branch_admittance(e);
        let (from, to) = (net.br_from[e], net.br_to[e]);
        diagonal[from] += ff;
        diagonal[to] += tt;
        between.extend([(from, to, ft), (to, from, tf)]);
    }
    diagonal.into_iter().enumerate().map(|(bus, y)| (bus, bus, y)).chain(between).collect()
}

// A solved case, whose `ends` gives the voltage and the current of each end of a branch.
struct Solved<'a> {
    net: &'a AcNetwork,
    vm: &'a [f64],
    va: &'a [f64],
}

// Request 5 of document 02: P and Q entering at the from end and at the to end, and the loss, P at the from end plus P at the to end.
fn flow(solved: &Solved, e: usize) -> [f64; 5] {
    let [from, to] = solved.ends(e).map(|(v, i)| v * i.conj());
    [from.re, from.im, to.re, to.im, from.re + to.re]
}

pub fn answer(text: &[u8]) -> String {
    let (mut net, start) = match read(text) {
        Err((number, place)) => return format!("refused {number} {place}\n"),
        Ok(read) => read,
    };
    if let Some(refusal) = missing_bus(&net).or_else(|| bad_branch(&net)) {
        return refusal;
    }
    if edition(text).flat == SECOND.flat {
        net.triplets = list(&net);
    }
    match ac_pf_with_start(&AcPolar, &net, start) {
        Err((mismatch, starts)) => format!("refused 10 {} {starts}\n", printed(mismatch)),
        Ok(s) => {
            let mut out = format!("ok {} {}\n", s.iterations, printed(s.residual));
            for b in 0..net.n {
                let kind = match s.kinds[b] {
                    BusKind::Slack => 'S',
                    BusKind::Pv => 'V',
                    BusKind::Pq => 'Q',
                };
                out += &format!("{b} {kind} {} {} {} {}\n", printed(s.vm[b]), printed(s.va[b]), printed(s.p[b]), printed(s.q[b]));
            }
            let solved = Solved { net: &net, vm: &s.vm, va: &s.va };
            for e in 0..net.tap.len() {
                let [p_from, q_from, p_to, q_to, loss] = flow(&solved, e).map(printed);
                out += &format!("{e} {p_from} {q_from} {p_to} {q_to} {loss}\n");
            }
            out
        }
    }
}

// Texts come as a batch: each its length in four big-endian bytes, then its bytes. Answers go to standard output in the same form, and a line of what
// each run met to standard error.
fn main() {
    let mut input = Vec::new();
    std::io::stdin().read_to_end(&mut input).unwrap();
    let (mut at, mut out, mut notes) = (0, Vec::new(), String::new());
    while at < input.len() {
        let n = u32::from_be_bytes(input[at..at + 4].try_into().unwrap()) as usize;
        let text = &input[at + 4..at + 4 + n];
        MET.with(|c| c.set(Met::default()));
        let a = answer(text);
        notes += &format!("{:?}\n", MET.with(Cell::get));
        out.extend_from_slice(&(a.len() as u32).to_be_bytes());
        out.extend_from_slice(a.as_bytes());
        at += 4 + n;
    }
    std::io::stdout().write_all(&out).unwrap();
    eprint!("{notes}");
}
