# An answer as a sheet: reads the case, then the answer. `csv` asks for CSV and says of what, `buses` or `branches`; `headed` says that its header line is out
# already; `base` is the MVA of one per unit where MW and MVAr are asked for. The environment's `name` is the case's. Ends with 2 where the answer is not one
# of the case. Needs fields.awk, tables.awk and reals.awk.
BEGIN {
    name = ENVIRON["name"]
    scale = base ? number(base) : 1
    places = base ? 4 : 6
    degrees = 180 / 3.14159265358979323846
}

FILENAME == ARGV[1] { next } # tables.awk reads the case

FNR == 1 {
    if ($1 != "ok" || NF != 3 || !is_printed($3)) { wrong = 1; exit }
    steps = $2
    mismatch = real($3)
    next
}

FNR - 2 >= buses + 0 { # a branch, the first of which is 1 in tables.awk and 0 in the answer
    k = ++flows
    if (NF != 6 || $1 != (k - 1 "")) { wrong = 1; exit }
    for (n = 2; n <= 6; n++) if (!is_printed($n)) { wrong = 1; exit }
    from_p[k] = real($2)
    from_q[k] = real($3)
    to_p[k] = real($4)
    to_q[k] = real($5)
    loss[k] = real($6)
    next
}

{
    b = FNR - 2
    if (NF != 6 || $1 != b || $2 !~ /^[SVQ]$/ || ($2 == "S") != (b in slack)) { wrong = 1; exit }
    for (k = 3; k <= 6; k++) if (!is_printed($k)) { wrong = 1; exit }
    letter[b] = $2
    vm[b] = real($3)
    va[b] = real($4)
    net_p[b] = real($5)
    net_q[b] = real($6)
    answered++
}

END {
    if (wrong || answered + 0 != buses + 0 || flows + 0 != (letters == second_edition ? lines + 0 : 0)) exit 2
    sum_limits()
    find_loadings()
    if (csv == "branches") branch_csv_rows()
    else if (csv) csv_rows()
    else sheet()
}

# The sum of two reals, either of which may be a word.
function plus(x, y) {
    if (is_word(x) && is_word(y) && x != y) return "nan"
    return is_word(x) ? x : is_word(y) ? y : x + y
}

function size(x) { return x < 0 ? -x : x }

function power(x) { return decimals(is_word(x) ? x : x * scale, places) }

function angle(x) { return decimals(is_word(x) ? x : x * degrees, 6) }

function generated_p(b) { return plus(net_p[b], load_p[b]) }

function generated_q(b) { return plus(net_q[b], load_q[b]) }

# The limits of a bus are those of its generators added up.
function sum_limits(    k) {
    for (k = 1; k <= generators; k++) {
        low[generator_bus[k]] += qmin[k]
        high[generator_bus[k]] += qmax[k]
    }
}

# How far the generated reactive power is above qmin and below qmax; nothing where the bus has no generator.
function room_down(b) { return b in low ? plus(generated_q(b), -low[b]) : "" }

function room_up(b) { return b in high ? plus(high[b], is_word(net_q[b]) ? net_q[b] : -generated_q(b)) : "" }

# What is to be said of a bus: where it is held, or that it is past a limit which nothing holds it to.
function remark(b,    q) {
    q = generated_q(b)
    if (!(b in low) || letter[b] == "V" || is_word(q)) return ""
    if (kind[b] == "V" && letter[b] == "Q") {
        if (low[b] == high[b]) return "held at qmin = qmax"
        return size(q - low[b]) < size(high[b] - q) ? "held at qmin" : "held at qmax"
    }
    if (q > high[b] + 1e-6) return "above qmax, not held"
    if (q < low[b] - 1e-6) return "below qmin, not held"
}

function limit(list, b) { return b in list ? power(list[b]) : "" }

function room(x) { return x == "" ? "" : power(x) }

function csv_rows(    b, unit) {
    unit = base ? "_mw" : "_pu"
    if (!headed) print "case,bus,kind,vm_pu,va_degrees,load_p" unit ",load_q" var(unit) ",gen_p" unit ",gen_q" var(unit) ",qmin" var(unit) ",room_down" var(unit) \
        ",qmax" var(unit) ",room_up" var(unit) ",remark"
    for (b = 0; b < buses; b++)
        print quoted(name) "," b "," letter[b] "," decimals(vm[b], 6) "," angle(va[b]) "," power(load_p[b]) "," power(load_q[b]) "," power(generated_p(b)) "," \
            power(generated_q(b)) "," limit(low, b) "," room(room_down(b)) "," limit(high, b) "," room(room_up(b)) "," quoted(remark(b))
}

# A field of CSV, in quotes where it needs them.
function quoted(s) {
    if (s !~ /[",]/) return s
    gsub(/"/, "\"\"", s)
    return "\"" s "\""
}

function var(unit) { return unit == "_mw" ? "_mvar" : unit }

function sheet(    b) {
    print name ": solved in " steps (steps == 1 ? " step" : " steps") ", largest mismatch " short(mismatch) " per unit"
    if (!buses) return
    head("", "", "voltage", "angle", "load P", "load Q", "gen. P", "gen. Q", "qmin", "above it", "qmax", "below it")
    head("bus", "kind", "p.u.", "degrees", base ? "MW" : "p.u.", var_unit(), base ? "MW" : "p.u.", var_unit(), var_unit(), var_unit(), var_unit(), var_unit())
    for (b = 0; b < buses; b++) {
        tell_row(b, letter[b], decimals(vm[b], 6), angle(va[b]), power(load_p[b]), power(load_q[b]), power(generated_p(b)), power(generated_q(b)), limit(low, b),
            room(room_down(b)), limit(high, b), room(room_up(b)), remark(b))
        total_load_p = plus(total_load_p, load_p[b])
        total_load_q = plus(total_load_q, load_q[b])
        total_p = plus(total_p, generated_p(b))
        total_q = plus(total_q, generated_q(b))
    }
    tell_row("all", "", "", "", power(total_load_p), power(total_load_q), power(total_p), power(total_q))
    print "generation less load, which lines, transformers and shunts take: P " power(plus(total_p, is_word(total_p) ? total_p : -total_load_p)) \
        ", Q " power(plus(total_q, is_word(total_q) ? total_q : -total_load_q)) (base ? " (MW, MVAr)" : " (p.u.)")
    voltage_range()
    if (flows) branch_list()
}

function var_unit() { return base ? "MVAr" : "p.u." }

function head(bus, k, v, a, lp, lq, gp, gq, qn, down, qx, up) { tell_row(bus, k, v, a, lp, lq, gp, gq, qn, down, qx, up, "") }

function tell_row(bus, k, v, a, lp, lq, gp, gq, qn, down, qx, up, said,    s) {
    s = sprintf("%4s %4s %9s %11s %10s %10s %10s %10s %10s %10s %10s %10s  %s", bus, k, v, a, lp, lq, gp, gq, qn, down, qx, up, said)
    sub(/ +$/, "", s)
    print s
}

function voltage_range(    b, lowest, highest) {
    lowest = highest = 0
    for (b = 0; b < buses; b++) {
        if (is_word(vm[b])) return
        if (vm[b] < vm[lowest]) lowest = b
        if (vm[b] > vm[highest]) highest = b
    }
    print "voltages from " decimals(vm[lowest], 6) " (bus " lowest ") to " decimals(vm[highest], 6) " (bus " highest ")"
}

# Apparent power, the root of p*p + q*q. Some awks are built without a square root: the one here is of a number from 1 to 2, for which six of Newton's steps
# from 1.2 are enough.
function apparent(p, q,    x, root, k) {
    if (is_word(p) || is_word(q)) return p == "nan" || q == "nan" ? "nan" : "inf"
    p = size(p)
    q = size(q)
    if (p < q) { x = p; p = q; q = x }
    if (p == 0) return 0
    x = 1 + (q / p) * (q / p)
    root = 1.2
    for (k = 1; k <= 6; k++) root = (root + x / root) / 2
    return p * root
}

# The loading of each branch, which is the apparent power at that end which has more of it, and the branch with the most, the first of equals. One that is off
# does not count, nor one with a figure that is not finite.
function find_loadings(    k, at_from, at_to) {
    for (k = 1; k <= flows; k++) {
        at_from = apparent(from_p[k], from_q[k])
        at_to = apparent(to_p[k], to_q[k])
        if (is_word(at_from) || is_word(at_to)) loading[k] = at_from == "nan" || at_to == "nan" ? "nan" : "inf"
        else loading[k] = at_to > at_from ? at_to : at_from
        end[k] = loading[k] == at_from ? "from" : "to"
        if (switched[k] == 0) continue
        if (is_word(loading[k]) || is_word(loss[k])) unknown++
        else if (loading[k] > (most_loaded ? loading[most_loaded] : 0)) most_loaded = k
    }
}

function branch_remark(k) { return switched[k] == 0 ? "off" : k == most_loaded ? "most loaded" : "" }

function branch_csv_rows(    k, unit) {
    unit = base ? "_mw" : "_pu"
    if (!headed) print "case,row,from,to,from_p" unit ",from_q" var(unit) ",to_p" unit ",to_q" var(unit) ",loss" unit ",loading" (base ? "_mva" : unit) ",remark"
    for (k = 1; k <= flows; k++)
        print quoted(name) "," (k - 1) "," from[k] "," to[k] "," power(from_p[k]) "," power(from_q[k]) "," power(to_p[k]) "," power(to_q[k]) "," power(loss[k]) "," \
            power(loading[k]) "," branch_remark(k)
}

function branch_list(    k, unit, total) {
    unit = base ? "MW" : "p.u."
    print "branches, with the power that enters each at its two ends (where negative, it leaves there):"
    tell_branch("", "", "", "from P", "from Q", "to P", "to Q", "loss P")
    tell_branch("row", "from", "to", unit, var_unit(), unit, var_unit(), unit)
    for (k = 1; k <= flows; k++) {
        tell_branch(k - 1, from[k], to[k], power(from_p[k]), power(from_q[k]), power(to_p[k]), power(to_q[k]), power(loss[k]), branch_remark(k))
        total = plus(total, loss[k])
    }
    tell_branch("all", "", "", "", "", "", "", power(total))
    print "the branches lose " power(total) " " unit " in all; " most_loaded_words()
}

function most_loaded_words(    k) {
    k = most_loaded
    if (!k) return unknown ? "which is the most loaded can't be told" : "none of them carries anything"
    return "the most loaded" (unknown ? " of those with finite figures" : "") " is row " (k - 1) " (bus " from[k] " to bus " to[k] "), with " power(loading[k]) \
        (base ? " MVA" : " p.u.") " of apparent power at its " end[k] " end"
}

function tell_branch(r, f, t, fp, fq, tp, tq, lost, said,    s) {
    s = sprintf("%4s %4s %4s %10s %10s %10s %10s %10s  %s", r, f, t, fp, fq, tp, tq, lost, said)
    sub(/ +$/, "", s)
    print s
}
