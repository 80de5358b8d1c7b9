# The reals of an answer: 16 hexadecimal digits of their bits, or `nan`.
function hex_digit(c) { return index("0123456789abcdef", c) - 1 }

# The double whose bits are the digits s; one that is not finite is a word. Every step is exact.
function real(s,    i, high, power, part) {
    if (s == "nan") return s
    high = hex_digit(substr(s, 1, 1)) * 256 + hex_digit(substr(s, 2, 1)) * 16 + hex_digit(substr(s, 3, 1))
    power = high % 2048
    for (i = 4; i <= 16; i++) part = part * 16 + hex_digit(substr(s, i, 1))
    if (power == 2047) return part > 0 ? "nan" : (high < 2048 ? "inf" : "-inf")
    if (power > 0) { part += 4503599627370496; power-- }
    for (power -= 1074; power > 0; power--) part *= 2
    for (; power < 0; power++) part /= 2
    return high < 2048 ? part : -part
}

# Whether s is a real as the program prints it.
function is_printed(s) { return s == "nan" || (length(s) == 16 && s !~ /[^0-9a-f]/) }

function is_word(x) { return x == "nan" || x == "inf" || x == "-inf" }

# x with the given decimals. Words stay as they are, and nothing is shown as minus zero.
function decimals(x, places,    s) {
    if (is_word(x)) return x
    s = sprintf("%." places "f", x)
    return s ~ /^-[0.]*$/ ? substr(s, 2) : s
}

# x to three digits.
function short(x) { return is_word(x) ? x : sprintf("%.3g", x) }
