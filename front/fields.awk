# The lines of a case: the fields of each, their names, and what kind of field each is (T the bus's kind, N a bus number, R a real, S a real or `?`).
# `letters` are those of the edition that a text is of, in their order: the first has L and Y lines, the second K lines.
BEGIN {
    first_edition = letters = "BRGLY"
    second_edition = "BRGK"
    line_names("B", "kind vm_set pd qd pg qg vm_case va_case", "T R R R R R S S", 32)
    line_names("R", "bus angle", "N R", 32)
    line_names("G", "bus qmin qmax", "N R R", 32)
    line_names("L", "from to", "N N", 64)
    line_names("Y", "row col re im", "N N R R", 256)
    line_names("K", "from to g b g_fr b_fr g_to b_to tap shift sw", "N N R R R R R R R R R", 64)
}

# The letters as they stand in a sentence.
function order(    k, s) {
    for (k = 1; k <= length(letters); k++) s = s (k > 1 ? ", " : "") substr(letters, k, 1)
    return s
}

# The number that decimal digits stand for. Without its leading zeros, which some awks take for the mark of an octal number.
function number(s,    minus) {
    minus = sub(/^-/, "", s)
    sub(/^0+/, "", s)
    return minus ? -s : s + 0
}

function line_names(letter, names, kinds, rows,    k, n, name, kind) {
    n = split(names, name, " ")
    split(kinds, kind, " ")
    field_count[letter] = n
    field_names[letter] = names
    table_size[letter] = rows
    for (k = 1; k <= n; k++) {
        field_name[letter, k] = name[k]
        field_kind[letter, k] = kind[k]
    }
}

function article(letter) { return (letter ~ /^[RL]$/ ? "an " : "a ") letter }
