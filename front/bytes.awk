# The bytes of a text, which od prints in decimal, and what they are called. A place is counted from 0, a line and a column from 1. The
# environment's `name` is the text's name in messages. Needs fields.awk.
BEGIN {
    for (code = 32; code < 127; code++) char[code] = sprintf("%c", code)
    known["0D"] = "a CR, as in the line ends of other systems;take all of them out: tr -d '\\r' < OLD > NEW"
    known["09"] = "a tab;put one space in its place"
    known["00"] = "a zero byte;the file is no plain text"
    known["23"] = "the sign # of a comment;a case has no comments, take the line out"
    known["2B"] = "a plus;leave it out, a number without a minus is positive"
    known["2C"] = "a comma;write decimals with a point and numbers without separators"
    known["45"] = known["65"] = "the letter of an exponent;write the number out with its zeros"
    known["53"] = "the letter S;a slack bus is V or Q in its B line, and its R line makes it the slack"
    known["46"] = known["43"] = known["66"] = known["63"] = "a letter that only the trailer may hold;are these two cases in one file?"
    known["4B"] = "the letter of a branch;K lines stand in a case without L and Y lines, whose trailer has f or c, as ./trailer writes it"
    known["96"] = "a typographic dash;write a plain -"
    known["A0"] = known["C2 A0"] = known["E2 80 AF"] = "a space that does not break;put a plain space in its place"
    known["E2 88 92"] = "a typographic minus;write a plain -"
    known["E2 80 90"] = known["E2 80 91"] = known["E2 80 93"] = known["E2 80 94"] = "a typographic dash;write a plain -"
    known["FE"] = known["FF"] = "as at the start of a UTF-16 text;save it as plain text"
    known["EF BB BF"] = "a byte order mark;save the text without it"
    name = ENVIRON["name"]
}

{ for (k = 1; k <= NF; k++) byte[size++] = $k }

# Where a place stands: line and column from 1, and the line's start.
function locate(at,    k) {
    line = 1
    line_start = 0
    for (k = 0; k < at; k++) if (byte[k] == 10) { line++; line_start = k + 1 }
    column = at - line_start + 1
}

# The bytes from one place to before another, those that are no plain character as `~`.
function text(from, end,    k, s) {
    for (k = from; k < end; k++) s = s (byte[k] in char ? char[byte[k]] : "~")
    return s
}

# The place of the first LF from a place on, or the end.
function line_end(from) {
    while (from < size && byte[from] != 10) from++
    return from
}

# The letter of the line that was located, and the number of the field at a place of it.
function line_letter() { return text(line_start, line_start + 1) }

function field_number(at,    k, n) {
    for (k = line_start; k < at; k++) if (byte[k] == 32) n++
    return n + 0
}

# The name of the field at a place of the line that was located, in brackets, or nothing.
function field_at(at,    letter, n) {
    letter = line_letter()
    n = field_number(at)
    return (letter, n) in field_name ? " (" field_name[letter, n] " of the " letter " line)" : ""
}

function tell_at(at, sentence) {
    locate(at)
    print name ", line " line ", column " column field_at(at) ": " sentence
}

function tell_line(at, sentence) {
    locate(at)
    print name ", line " line ": " sentence
}

# A byte, with those that make one character of UTF-8 with it, as two hexadecimal digits each.
function hex_at(at,    n, k, s) {
    n = byte[at] >= 240 ? 4 : byte[at] >= 224 ? 3 : byte[at] >= 194 ? 2 : 1
    s = sprintf("%02X", byte[at])
    for (k = 1; k < n; k++) {
        if (at + k >= size || byte[at + k] < 128 || byte[at + k] > 191) return sprintf("%02X", byte[at])
        s = s sprintf(" %02X", byte[at + k])
    }
    return s
}

# What stands at a place, and after a `;` what to do about it.
function seen_at(at,    hex, told) {
    hex = hex_at(at)
    if (hex in known) { split(known[hex], told, ";"); return "the byte" (hex ~ / / ? "s " : " ") hex ", " told[1] ",;" told[2] }
    if (byte[at] in char) return "the character " char[byte[at]] ";see README.md, Writing a case, for what may stand there"
    return "the byte" (hex ~ / / ? "s " : " ") hex ";see README.md, Writing a case, for what may stand there"
}

# The first place of a byte that is neither LF nor a plain character, or the end.
function first_foreign(    k) {
    for (k = 0; k < size && (byte[k] == 10 || byte[k] in char); k++);
    return k
}

# The start of the last line.
function last_line(    k) {
    for (k = size - 1; k > 0 && byte[k - 1] != 10; k--);
    return k
}
