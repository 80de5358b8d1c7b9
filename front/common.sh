# What ./solve, ./show and ./test share. They set `here`, the folder of this checkout, and `me`, their own name, before they read this file.
# shellcheck shell=sh disable=SC2154
LC_ALL=C # a length is in bytes, a decimal has a point, and letters sort by their bytes
export LC_ALL
most=32768 # bytes of a case

say() { printf '%s\n' "$me: $*" >&2; }

give_up() {
    say "$*"
    exit 2
}

# A folder of our own for what is worked on, removed at the end, however that comes.
open_work() {
    work=$(mktemp -d) || give_up "no folder for temporary files can be made in ${TMPDIR:-/tmp}"
    trap 'rm -rf "$work"' EXIT
    trap 'exit 130' INT
    trap 'exit 143' TERM HUP
}

# As messages name a case.
named() { # CASE
    if [ "$1" = - ]; then echo "standard input"; else printf '%s\n' "$1"; fi
}

# Copies a case to $work/text, or says why it can't be had. One byte more than a case may have is enough to know that it is too long.
take() { # CASE
    if [ "$1" = - ] || [ "$1" = /dev/stdin ]; then
        if head -c $((most + 1)) >"$work/text" 2>/dev/null; then return 0; fi
        say "standard input could not be read, or $work could not be written"
    elif [ -d "$1" ]; then
        say "$1 is a folder; name a case file in it"
    elif [ ! -e "$1" ]; then
        say "there is no file $1"
    elif [ ! -r "$1" ]; then
        say "$1 can't be read: you have no permission to"
    elif head -c $((most + 1)) <"$1" >"$work/text" 2>/dev/null; then
        return 0
    else
        say "$1 could not be read, or $work could not be written"
    fi
    return 1
}

# Puts what the program prints of $work/text into $work/answer, and what it is into `verdict`: ok, or refused.
# The program has no exit status. So that no answer counts which a full disk has cut off, it must end in LF and have as many lines as belong to it: that of a
# solved case one for each bus and one for each branch below the first. (A solved case of L and Y lines has no K line.)
answer() {
    run_program <"$work/text" >"$work/answer" 2>"$work/said"
    verdict=$(sed -n '1s/ .*//p' "$work/answer")
    case $verdict in
        ok) lines=$(($(grep -c '^[BK] ' "$work/text") + 1)) ;;
        refused) lines=1 ;;
        *) lines='' ;;
    esac
    if [ "$(wc -l <"$work/answer")" != "$lines" ] || [ "$(tail -c 1 "$work/answer" | wc -l)" != 1 ]; then
        say "the program gave no answer, or not all of it"
        sed "s/^/$me: it said: /" "$work/said" >&2
        return 1
    fi
}

# The sentence that a refusal has for people, on standard error.
explain() { # NAME
    od -A n -v -t u1 "$work/text" | name=$1 awk -v refused="$(cat "$work/answer")" -f "$here/front/reals.awk" -f "$here/front/fields.awk" \
        -f "$here/front/bytes.awk" -f "$here/front/refusal.awk" | sed "s/^/$me: /" >&2
}

# What looks like a slip in a network that can be solved all the same, on standard error.
warn() { # NAME
    case $(cat "$work/answer") in
        "ok "* | "refused 10 "*)
            name=$1 awk -f "$here/front/fields.awk" -f "$here/front/tables.awk" -f "$here/front/warnings.awk" "$work/text" | sed "s/^/$me: /" >&2
            ;;
    esac
}
