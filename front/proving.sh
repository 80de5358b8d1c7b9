# Runs a long proof and tells how far it is. A run that is interrupted stops the whole proof with it: rt's own children ignore Ctrl-C, and would go on
# writing under the next run.
# shellcheck shell=sh disable=SC2154
started_by=tinklehames-proof # the name that a proof's process has

# Runs COMMAND, which proves the crate TOP and all that it needs (or every crate, where TOP is empty), with its output in LOG. Gives its status.
proving() { # LOG TOP COMMAND..
    log=$1 top=$2
    shift 2
    crates=$(needed "$top")
    wait_for_other
    rm -f "$log" "$work/ended"
    began=$(date +%s) what=''
    trap 'stop_proof; exit 130' INT
    trap 'stop_proof; exit 143' TERM HUP
    # shellcheck disable=SC2016
    setsid sh -c 'log=$1 ended=$2; cd "$3" && shift 3 && "$@" >"$log" 2>&1; echo $? >"$ended"' "$started_by" "$log" "$work/ended" "$here" "$@" </dev/null &
    proof=$!
    echo "$proof" >"$here/.proving"
    while [ ! -s "$work/ended" ] && kill -0 "$proof" 2>/dev/null; do
        sleep 1
        progress
    done
    trap 'exit 130' INT
    trap 'exit 143' TERM HUP
    progress
    rm -f "$here/.proving"
    if [ -t 2 ]; then printf '\n' >&2; fi
    return "$(cat "$work/ended" 2>/dev/null || echo 2)"
}

# Stops the proof with all its children, and waits until they are gone. The signal may come when the proof has only just been started: `proof` is not set
# then, and the group may not be there yet.
stop_proof() {
    proof=${!-}
    kill -s TERM -- "-$proof" 2>/dev/null || kill -s TERM "$proof" 2>/dev/null
    wait "$proof" 2>/dev/null
    for _ in 1 2 3 4 5; do
        kill -s TERM -- "-$proof" 2>/dev/null || break
        sleep 1
    done
    rm -f "$here/.proving"
    if [ -t 2 ]; then printf '\n' >&2; fi
    say "stopped, and nothing goes on behind it; call it again when you like"
}

# A proof goes on where its caller was killed outright: the next caller waits for it.
wait_for_other() {
    other=$(cat "$here/.proving" 2>/dev/null) || return 0
    began=$(date +%s) what=''
    while grep -q "$started_by" "/proc/$other/cmdline" 2>/dev/null; do
        [ -n "$what" ] || say "another call is proving here already (process $other); waiting for it"
        progress
        sleep 1
    done
}

# How many crates are to be proved for the given one, itself among them; all for the empty name.
needed() { # CRATE
    awk -v top="$1" '
        { sub(/#.*/, "") }
        /:/ { name = $1; sub(/:$/, "", name); sub(/^[^:]*:/, ""); needs[name] = $0 }
        function reach(name,    k, n, part) {
            if (!(name in needs) || name in seen) return
            seen[name] = 1
            count++
            n = split(needs[name], part, " ")
            for (k = 1; k <= n; k++) reach(part[k])
        }
        END {
            if (top != "") reach(top)
            else for (name in needs) reach(name)
            print count + 0
        }' "$here/crates.txt"
}

# The crates that the log says are proved, each once.
proved_so_far() {
    sed -n -E 's/^rt: ([a-z0-9_]+) (proved|is kept: .*)$/\1/p; s/^crate ([a-z0-9_]+): modules .*/\1/p' "$log" 2>/dev/null | awk '!seen[$0]++'
}

# How many are done of how many, what is worked on, and the time so far: one line, updated in place, on a terminal; elsewhere a line for each that is done.
progress() {
    was=${what-}
    finished=$(proved_so_far) now=$(sed -n -E 's/^== ([a-z0-9_]+)$/\1/p; s/^rt: chose .* for ([a-z0-9_]+)$/\1/p' "$log" 2>/dev/null | tail -n 1)
    what='crates proved' of=$crates
    [ "$what" = "$was" ] || told='' number=0
    seconds=$(($(date +%s) - began))
    for one in $finished; do
        case " $told " in *" $one "*) continue ;; esac
        told="$told $one" number=$((number + 1))
        [ -t 2 ] || say "$number of $of $what, $((seconds / 60)) min $((seconds % 60)) s: $one"
    done
    if [ -t 2 ]; then
        printf '\r\033[K%s: %d of %d %s, %d min %d s, now %.30s' "$me" "$number" "$of" "$what" $((seconds / 60)) $((seconds % 60)) "$(printf '%s' "$now" | tr '\n' ' ')" >&2
    fi
}
