# The sentence for people that belongs to a refusal; `refused` is the program's line. Needs bytes.awk, fields.awk and reals.awk.
BEGIN {
    then_trailer = "then write the trailer again: ./trailer --again OLD > NEW"
    # the lines of which a refusal gives the row
    naming[8] = "R"
    naming[11] = "G"
    naming[13] = "Y"
}

END {
    # the byte 32 from the end tells the edition
    if (size >= 32 && (byte[size - 32] == 102 || byte[size - 32] == 99)) letters = second_edition
    naming[12] = substr(letters, 4, 1)
    groups = length(letters) + 1
    trailer_size = 6 * groups + 2
    split(refused, part, " ")
    place = part[2] == 10 ? part[3] : part[3] + 0
    if (part[2] ~ /^[23456]$/ && place >= size) print_other_case()
    else if (part[2] == 1) wrong_size()
    else if (part[2] == 2) wrong_trailer()
    else if (part[2] == 3) wrong_byte()
    else if (part[2] == 4) wrong_form()
    else if (part[2] == 5) wrong_field()
    else if (part[2] == 6) too_many_rows()
    else if (part[2] in naming) missing_bus(naming[part[2]], part[3] + 0, part[4] + 0)
    else if (part[2] == 14) wrong_tap(part[3] + 0)
    else if (part[2] == 15) loop(part[3] + 0)
    else if (part[2] == 10) not_converged()
}

function print_other_case() { print name ": the refusal is not one of this case" }

function not_plain(    at, seen) {
    at = first_foreign()
    if (at == size) return ""
    split(seen_at(at), seen, ";")
    locate(at)
    return " It has " seen[1] " in line " line ", column " column ": is it a case at all?"
}

function wrong_size() {
    if (size == 0) print name " is empty: a case has its lines and at the end a trailer, which ./trailer writes"
    else if (size < 38) print name " has " size " bytes, fewer than a trailer alone: it is cut off, or its trailer is missing; ./trailer F OLD > NEW writes it." not_plain()
    else print name " has more than 32768 bytes, the most that a case may have: is it one case?" not_plain()
}

function wrong_trailer(    at, last, seen) {
    at = first_foreign()
    if (at < size) {
        split(seen_at(at), seen, ";")
        return tell_at(at, seen[1] " can't stand in a case; " seen[2] "; " then_trailer)
    }
    at = last_line()
    last = text(at, line_end(at))
    if (byte[size - 1] != 10) tell_line(at, "the last line does not end in LF: the text is cut off, or Enter is missing behind it; " then_trailer)
    else if (last == "") tell_line(at, "an empty line stands behind the trailer; take it out, " then_trailer)
    else if (last ~ /^[BRGLYK] /) tell_line(at, "the last line is no trailer but a line of the network; ./trailer F OLD > NEW writes the trailer (C for F: start from the stored voltages)")
    else if (last ~ /^[FC]( [0-9][0-9][0-9][0-9][0-9])+$/ && length(last) == 31)
        tell_line(at, "the trailer has five numbers, as in a case of K lines, and there its letter is a small f or c; write the trailer again: ./trailer --again OLD > NEW")
    else if (last !~ ("^" (letters == second_edition ? "[fc]" : "[FC]") "( [0-9][0-9][0-9][0-9][0-9])+$") || length(last) != trailer_size - 1)
        tell_line(at, "the last line is no trailer, which is F or C and six numbers of five digits with one space before each, or f or c and five in a case of K lines; ./trailer F OLD > NEW writes it")
    else tell_line(at, wrong_start(last) "; was the case edited? Write the trailer again: ./trailer --again OLD > NEW")
}

# What is wrong with the numbers of a trailer that has the right form.
function wrong_start(last,    k, start) {
    split(last, start, " ")
    if (number(start[2]) != 0) return "the trailer's first number is " start[2] ", and B lines start at 00000"
    for (k = 3; k <= groups + 1; k++)
        if (number(start[k]) < number(start[k - 1])) return "the trailer's number " start[k] " is less than the one before it, " start[k - 1]
    return "the trailer says that it starts at byte " number(start[groups + 1]) ", and it starts at byte " (size - trailer_size)
}

function wrong_byte(    seen) {
    split(seen_at(place), seen, ";")
    tell_at(place, seen[1] " can't stand in a case; " seen[2] "; " then_trailer)
}

# Where the section of a letter starts, by the trailer; sets where it ends.
function section_start(letter,    start) {
    split(text(size - trailer_size, size - 1), start, " ")
    section_end = number(start[index(letters, letter) + 2])
    return number(start[index(letters, letter) + 1])
}

# The letter of the section in which a place stands; sets where the section ends.
function section_at(at,    k) {
    for (k = length(letters); section_start(substr(letters, k, 1)) > at; k--);
    return substr(letters, k, 1)
}

function wrong_form(    letter, end, row, count, found, found_fields) {
    letter = section_at(place)
    end = line_end(place)
    row = text(place, end)
    found = substr(row, 1, 1)
    count = split(row, found_fields, " ") - 1
    if (row == "") return tell_line(place, "the line is empty; take it out, " then_trailer)
    if (found ~ /^[LY]$/ && letters == second_edition) return tell_line(place, "this is " article(found) " line, and a case of K lines has none; give each line and transformer as a K line, " then_trailer)
    if (found != letter && index(letters, found)) return tell_line(place, "the trailer has " letter " lines here, and this is " article(found) " line; put the lines in the order " order() ", " then_trailer)
    if (end >= section_end) return tell_line(place, "the trailer has the " letter " lines end inside this line; " then_trailer)
    if (found != letter) return tell_line(place, "the trailer has " letter " lines here, and a line starts with its letter; put it there, " then_trailer)
    if (row ~ / $/) return tell_line(place, "a space stands at the end of the line; take it out, " then_trailer)
    if (row ~ /  /) return tell_line(place, "two spaces stand side by side; leave one, " then_trailer)
    if (count != field_count[letter])
        return tell_line(place, article(letter) " line has " field_count[letter] " fields behind its letter (" field_names[letter] "), and this has " count "; " then_trailer)
    tell_line(place, "a space is missing behind the letter " letter "; " then_trailer)
}

function wrong_field(    end, kind, found) {
    locate(place)
    for (end = place; end < size && byte[end] != 32 && byte[end] != 10; end++);
    found = text(place, end)
    kind = field_kind[line_letter(), field_number(place)]
    tell_at(place, brief(found) " is " (kind == "T" ? "no kind: it is V (voltage given) or Q (power given)" : kind == "N" ? wrong_number(found) : wrong_real(found)) "; mend it, " then_trailer)
}

function wrong_number(found) {
    if (found ~ /^0[0-9]+$/) return "no bus number: it may not begin with 0"
    if (found ~ /^[0-9]+$/) return "no bus number: it has 3 digits at most"
    return "no bus number: it is 1 to 3 digits and nothing else"
}

# A field that fits in a sentence; of a longer one its beginning, its end and how long it is.
function brief(found) {
    if (length(found) <= 60) return found
    return substr(found, 1, 30) ".." substr(found, length(found) - 19) " (" length(found) " characters)"
}

function wrong_real(found,    digits, point) {
    digits = found
    gsub(/[^0-9]/, "", digits)
    sub(/^0+/, "", digits)
    point = index(found, ".")
    if (found == "?") return "for a stored voltage or angle alone; give a number here"
    if (found ~ /^-?\./) return "no number: a digit must stand before the point"
    if (found ~ /\.$/) return "no number: a digit must stand behind the point"
    if (found !~ /^-?[0-9]+(\.[0-9]+)?$/) return "no number: it is digits, with a minus in front and a point inside where needed"
    if (length(digits) > 15) return "no number: it has " length(digits) " digits, zeros in front not counted, and 15 are the most"
    return "no number: it has " (length(found) - point) " digits behind the point, and 22 are the most"
}

function too_many_rows(    letter) {
    letter = section_at(place)
    tell_line(place, "this is " article(letter) " line too many: a case has at most " table_size[letter] "; leave out or merge parts of the network, " then_trailer)
}

# Where a row of a section stands, and its parts in `found`; the section's end where it has no such row.
function row_start(letter, row,    at, k) {
    at = section_start(letter)
    for (k = 0; k < row && at < section_end; k++) at = line_end(at) + 1
    split(text(at, line_end(at)), found, " ")
    return at
}

# The program tells the row and the field; this adds the file, the line and the number that stands there.
function missing_bus(letter, row, field,    at, buses) {
    if (!index(letters, letter)) return print_other_case()
    for (at = section_start("B"); at < section_end; at = line_end(at) + 1) buses++
    at = row_start(letter, row)
    if (at >= section_end || field_kind[letter, field + 1] != "N" || found[field + 2] + 0 < buses + 0) return print_other_case()
    tell_at(at + 2 + (field ? length(found[2]) + 1 : 0), "there is no bus " found[field + 2] "; " \
        (buses > 1 ? "the buses are 0 to " (buses - 1) ", one for each B line" : buses ? "the only bus is 0" : "the case has no B line") \
        "; mend the number, take the line out or give the bus its B line, " then_trailer)
}

# The place of a field of the line at a place, whose parts are in `found`; the first field is 1.
function field_start(at, field,    k) {
    for (k = 1; k <= field; k++) at += length(found[k]) + 1
    return at
}

function wrong_tap(row,    at) {
    at = letters == second_edition ? row_start("K", row) : size
    if (at >= section_end || number(found[10]) > 0) return print_other_case()
    tell_at(field_start(at, 9), "the tap is " brief(found[10]) ", and a tap is above zero; a line has 1, and so has a transformer at its middle step; mend it, " then_trailer)
}

function loop(row,    at) {
    at = letters == second_edition ? row_start("K", row) : size
    if (at >= section_end || found[2] != found[3]) return print_other_case()
    tell_at(field_start(at, 2), "the branch goes from bus " found[2] " to itself; mend a bus number, or take the line out (a shunt goes into g_fr and b_fr, or g_to and b_to, of a branch at its bus), " then_trailer)
}

function not_converged(    mismatch, sentence) {
    mismatch = real(place)
    if (mismatch == "inf") sentence = "in twelve rounds the generators did not settle: one bus after another reached a limit or left it; widen the limits, or set the voltages nearer to each other"
    else if (mismatch == "nan") sentence = "a number grew beyond all bounds; look for a wrong sign or unit"
    else sentence = "the smallest mismatch left is " short(mismatch) " (solved is below 1e-08); look for too much load, a wrong sign or unit, a missing " (letters == second_edition ? "branch" : "entry") ", or a part without a slack bus"
    print name ": none of " part[4] " starts led to a solution: " sentence
}
