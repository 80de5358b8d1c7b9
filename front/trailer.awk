# The lines of a network with their trailer; or one line that says why they have none, and status 1. `flag` is F or C, or empty where the letter of the
# trailer that stands there is to be kept; `again` is set where a trailer stands there and is to be written anew. K lines make a trailer of the second
# edition, L and Y lines one of the first; where there are none of them the letter does, small or large. Needs bytes.awk and fields.awk.
END {
    if (size == 0) refuse(name " is empty; where the output is sent to the same file, the shell empties it first, so send it to another")
    at = first_foreign()
    if (at < size) {
        split(seen_at(at), seen, ";")
        refuse_at(at, seen[1] " can't stand in a case; " seen[2])
    }
    if (byte[size - 1] != 10) refuse_at(size, "the last line does not end in LF: the text is cut off, or Enter is missing behind it")
    last = last_line()
    old = text(last, last + 1)
    if (again && byte[last] == 10) refuse_at(last, "the line is empty; take it out")
    if (again && old !~ /^[FCfc]$/) refuse_at(last, "this last line is no trailer that could be written again; leave --again out")
    if (again && flag == "") flag = old
    end = again ? last : size
    for (at = 0; at < end; at = line_end(at) + 1) lines = lines take_line(at) "\n"
    if (!edition) letters = flag ~ /[fc]/ ? second_edition : first_edition
    while (section < length(letters) + 1) start[++section] = end
    printf "%s%s", lines, letters == second_edition ? tolower(flag) : toupper(flag)
    for (k = 1; k <= section; k++) printf " %05d", start[k]
    printf "\n"
}

# A line that only one edition has.
function choose(at, letter, of) {
    if (edition && edition != of) refuse_at(at, article(letter) " line in a text with " (of == second_edition ? "L or Y" : "K") " lines; a case has either K lines, or L and Y lines")
    letters = edition = of
}

# Hands a line on, and keeps where its section starts.
function take_line(at,    letter) {
    letter = text(at, at + 1)
    if (byte[at] == 10) refuse_at(at, "the line is empty; take it out")
    if (letter ~ /[FCfc]/)
        refuse_at(at, line_end(at) + 1 == size ? "a trailer stands there already; --again writes it anew" : "a trailer, and lines behind it: are these two cases?")
    if (letter == "K") choose(at, letter, second_edition)
    if (letter ~ /[LY]/) choose(at, letter, first_edition)
    if (!index(letters, letter)) refuse_at(at, "the line starts with " letter ", and a line starts with B, R, G and K, or B, R, G, L and Y; a case has no comments")
    if (index(letters, letter) < section) refuse_at(at, article(letter) " line below a line of " substr(letters, section, 1) "; the order is " order())
    while (section < index(letters, letter)) start[++section] = at
    return text(at, line_end(at))
}

function refuse_at(at, why) {
    locate(at)
    refuse(name ", line " line ": " why)
}

function refuse(why) {
    print why
    exit 1
}
