# Which program answers: the shipped one where it was made from the sources that stand here, else one that is proved and compiled here.
# shellcheck shell=sh disable=SC2154

# One sum over all that the program is made from.
sources_sum() {
    (cd "$here" && find crates crates.txt -name out -prune -o -type f \( -name '*.rt' -o -name crates.txt \) -exec sha256sum {} + | sort -k 2 | sha256sum | cut -d ' ' -f 1)
}

sum_of() { # FILE
    sha256sum <"$1" | cut -d ' ' -f 1
}

# What a folder's file `made` says: sources, program or processor.
made() { # FOLDER WHAT
    sed -n "s/^$2 //p" "$1/made" 2>/dev/null
}

# Whether a folder's program was made from the sources with the given sum, and is whole.
fits() { # FOLDER SUM
    [ -f "$1/solve" ] && [ "$(made "$1" sources)" = "$2" ] && {
        [ "$(made "$1" program)" = "$(sum_of "$1/solve")" ] || {
            say "$1/solve is not the program that was put there (its sum is another) and is not used; git checkout dist brings the shipped one back"
            return 1
        }
    }
}

# Proves and compiles the program and puts it into a folder, with the sum of its sources.
build() { # FOLDER
    command -v rt >/dev/null || give_up "no program here fits the sources, and rt, the command of the Rattle toolchain that would prove and compile" \
        "them, is not on the PATH. Put the toolchain there, or take your changes back (git status shows them)"
    mkdir -p "$here/target" 2>/dev/null && [ -w "$here/target" ] || give_up "the program must be built, and $here can't be written"
    before=$(sources_sum)
    say "the program is proved and compiled; this is done once and takes about 10 minutes"
    # The run has no input: what it prints of the empty text goes to the log.
    proving "$here/target/solve.log" solve sh -c 'cd crates/solve && exec rt run </dev/null' || give_up "the program could not be built; target/solve.log says why"
    [ "$(sources_sum)" = "$before" ] || give_up "the sources were changed while they were proved; call it again"
    mkdir -p "$1" &&
        cp "$here/crates/solve/out/solve" "$1/solve.new" &&
        printf '%s\n' "sources $before" "program $(sum_of "$1/solve.new")" "processor $(uname -m)" >"$1/made.new" &&
        mv "$1/solve.new" "$1/solve" &&
        mv "$1/made.new" "$1/made" || give_up "the program could not be put into $1"
}

# Sets `program`, building it where no folder has one that fits.
find_program() {
    sum=$(sources_sum)
    for folder in "$here/dist" "$here/target/dist"; do
        program=$folder/solve
        if fits "$folder" "$sum"; then return 0; fi
    done
    build "$here/target/dist"
}

# Sets the loader that starts the program, which is compiled for x86-64 Linux: the machine's own; else the toolchain's, on another processor
# through its emulator.
find_loader() {
    loader=/lib64/ld-linux-x86-64.so.2 libraries='' emulator=''
    if [ "$(uname -m)" = x86_64 ] && [ -e "$loader" ]; then return 0; fi
    command -v rt >/dev/null || give_up "the program is compiled for Linux on x86-64 with glibc 2.34 or later; this machine ($(uname -s), $(uname -m)) can run it" \
        "with the Rattle toolchain alone, and its command rt is not on the PATH"
    libraries=$(dirname "$(rt doc)")/on/$(uname -m)/toolchain/lib
    loader=$libraries/ld-linux-x86-64.so.2
    emulator=$(dirname "$libraries")/bin/qemu-x86_64
    [ -x "$emulator" ] || emulator=''
    [ -e "$loader" ] || give_up "the Rattle toolchain here has nothing to run the program with ($loader is missing)"
}

run_program() {
    ${emulator:+"$emulator"} "$loader" ${libraries:+--library-path "$libraries"} "$program"
}
