# What the tests of the front door share: each runs a command and holds its status and what it prints against what is expected. Read by the test scripts,
# which set `top`, the folder of the checkout, and `here`, a folder of their own that is removed at the end.
# shellcheck shell=sh disable=SC2154
same=0 different=0 skipped=0
lf='
'

# Runs COMMAND. Its status must be STATUS, its standard output must begin with OUT, and its standard error must hold ERR (where either is empty, be empty).
expect() { # TITLE STATUS OUT ERR COMMAND..
    title=$1 status=$2 out=$3 err=$4
    shift 4
    "$@" >"$here/out" 2>"$here/err"
    got=$?
    wrong=''
    [ "$got" = "$status" ] || wrong="$wrong status $got, not $status;"
    case $(cat "$here/out") in "$out"*) ;; *) wrong="$wrong standard output: $(head -n 3 "$here/out")" ;; esac
    [ -n "$out" ] || [ ! -s "$here/out" ] || wrong="$wrong standard output: $(head -n 3 "$here/out")"
    case $(cat "$here/err")$lf in *"$err"*) ;; *) wrong="$wrong standard error: $(cat "$here/err")" ;; esac
    [ -n "$err" ] || [ ! -s "$here/err" ] || wrong="$wrong standard error: $(cat "$here/err")"
    result "$title" "$wrong"
}

# Runs COMMAND, which must end with 0 and print what FILE holds, to the last byte.
expect_file() { # TITLE FILE COMMAND..
    title=$1 file=$2
    shift 2
    "$@" >"$here/out" 2>"$here/err"
    status=$? wrong=''
    [ "$status" -eq 0 ] || wrong=" status $status;"
    wrong="$wrong$(cmp "$here/out" "$file" 2>&1)"
    result "$title" "$wrong"
}

result() { # TITLE WRONG
    if [ -z "$2" ]; then
        same=$((same + 1))
    else
        echo "$1: DIFFERENT:$2"
        different=$((different + 1))
    fi
}

not_run() { # TITLE WHY
    echo "$1: not run: $2"
    skipped=$((skipped + 1))
}

# The closing line, and whether all was as expected.
sum_up() { # WHAT
    echo "$1: $same as expected, $different different$([ "$skipped" -eq 0 ] || echo ", $skipped not run")"
    [ "$different" -eq 0 ]
}
