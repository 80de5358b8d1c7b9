# What looks like a slip in a network that the program solves all the same: one line for each kind of slip. The environment's `name` is the
# case's. Needs tables.awk.
END {
    name = ENVIRON["name"]
    if (letters == first_edition) {
        for (k = 1; k <= entries; k++) given[row[k], col[k]]++
        for (k = 1; k <= lines; k++) joined[from[k], to[k]] = joined[to[k], from[k]] = 1
        mirrors()
        lines_and_entries()
        diagonals()
    } else branches()
    parts()
    generators_of_buses()
    voltages()
}

# Collects one instance of a slip; the first few are named.
function note(what) {
    if (++noted <= 4) instances = instances (noted > 1 ? ", " : "") what
}

function tell(sentence) {
    if (noted) print "warning: " name ": " sentence ": " instances (noted > 4 ? " and " (noted - 4) " more" : "")
    noted = 0
    instances = ""
}

function at_line(where) { return " (line " where ")" }

function mirrors(    k) {
    for (k = 1; k <= entries; k++)
        if (row[k] != col[k] && !((col[k], row[k]) in given)) note("Y " row[k] " " col[k] at_line(entry_line[k]) " but no Y " col[k] " " row[k])
    tell("an entry without its mirror; a line needs both Y(i,k) and Y(k,i)")
}

function lines_and_entries(    k) {
    for (k = 1; k <= lines; k++)
        if (from[k] != to[k] && !((from[k], to[k]) in given) && !((to[k], from[k]) in given)) note("L " from[k] " " to[k] at_line(branch_line[k]))
    tell("a line without admittance entries, which carries nothing")
    for (k = 1; k <= entries; k++)
        if (row[k] != col[k] && !((row[k], col[k]) in joined)) note("Y " row[k] " " col[k] at_line(entry_line[k]))
    tell("an admittance entry between buses that no L line joins")
}

function diagonals(    b) {
    for (b = 0; b < buses; b++) if (!((b, b) in given)) note("bus " b)
    tell("a bus without a diagonal entry Y(i,i)")
    for (b = 0; b < buses; b++) if (given[b, b] > 1) note("bus " b)
    tell("a bus with more than one diagonal entry, which makes Newton steps go wrong; add them up to one")
}

# A field of a K line that is not what one expects, and where.
function branch(k, what) { return "K " from[k] " " to[k] " has " what at_line(branch_line[k]) }

function branches(    b, k, all, off) {
    for (k = 1; k <= lines; k++) if (tap[k] < 0.5 || tap[k] > 2) note(branch(k, tap[k]))
    tell("a tap outside 0.5 to 2; a tap is a ratio, 1 in a line")
    for (k = 1; k <= lines; k++) if (shift[k] < -7 || shift[k] > 7) note(branch(k, shift[k]))
    tell("a shift over 7; a shift is in radians, not in degrees")
    for (k = 1; k <= lines; k++) if (switched[k] != 0 && switched[k] != 1) note(branch(k, switched[k]))
    tell("an sw other than 0 (off) and 1 (on), which multiplies all that the branch carries")
    for (k = 1; k <= lines; k++) if (susceptance[k] > 0) note(branch(k, susceptance[k]))
    tell("a b above zero, as of a capacitor in series; b is -x/(r*r + x*x)")
    for (k = 1; k <= lines; k++) {
        all[from[k]]++
        all[to[k]]++
        if (switched[k] == 0) { off[from[k]]++; off[to[k]]++ }
    }
    for (b = 0; b < buses; b++) if (off[b] && off[b] == all[b]) note("bus " b)
    tell("a bus whose K lines are all off")
}

# Buses that L or K lines join are one part; a part's name is its lowest bus.
function parts(    b, k, changed, low, members, count, has_slack) {
    for (b = 0; b < buses; b++) part[b] = b
    do {
        changed = 0
        for (k = 1; k <= lines; k++) {
            low = part[from[k]] < part[to[k]] ? part[from[k]] : part[to[k]]
            if (part[from[k]] != low || part[to[k]] != low) changed = 1
            part[from[k]] = part[to[k]] = low
        }
    } while (changed)
    for (b = 0; b < buses; b++) {
        if (b in slack) has_slack[part[b]] = 1
        members[part[b]] = members[part[b]] (part[b] == b ? "" : " ") b
        count[part[b]]++
    }
    for (b = 0; b < buses; b++) if (count[part[b]] == 1 && buses > 1) note("bus " b)
    tell("a bus that hangs on nothing, since no " substr(letters, 4, 1) " line joins it to another")
    for (b = 0; b < buses; b++) if (part[b] == b && !(b in has_slack)) note(count[b] == 1 ? "bus " b : "buses " members[b])
    tell("a part without a slack bus, in which no R line names a bus")
}

function generators_of_buses(    k, b, has) {
    for (k = 1; k <= generators; k++) has[generator_bus[k]] = 1
    for (b = 0; b < buses; b++) if (kind[b] == "V" && !(b in slack) && !(b in has)) note("bus " b)
    tell("a V bus without a G line, which holds its voltage whatever reactive power that takes")
    for (k = 1; k <= generators; k++) if (qmin[k] > qmax[k]) note("bus " generator_bus[k] at_line(generator_line[k]))
    tell("a G line with qmin above qmax")
}

function voltages(    b) {
    for (b = 0; b < buses; b++) if (set_voltage[b] < 0.5 || set_voltage[b] > 1.5) note("bus " b " has " set_voltage[b] at_line(bus_line[b]))
    tell("a set voltage outside 0.5 to 1.5; voltages are in per unit")
}
