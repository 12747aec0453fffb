# What the launchers inet, picture and why have in common; each reads this file once it knows where it stands.
#
# A program is proved and built by the command rt on the PATH where a source is newer than it. What goes on then is
# reported on standard error. $name is the program and its crate, $here the repository's folder, and $once the words
# with which it is run once when it is built; the function building says what begins.
# shellcheck shell=sh disable=SC2154

# What a launcher keeps: the program, the moment of its sources, the lock and the log of the last build.
kept=$here/crates/$name/out/launcher
program=$kept/$name
mark=$kept/sources
log=$kept/log

# The crates that the program is made of: its own and those below it, in the order of crates.txt.
crates() {
    awk -v program="$name" '
        { sub(/#.*/, "") }
        split($0, side, ":") == 2 {
            split(side[1], left, " ")
            name[++lines] = left[1]
            below[left[1]] = side[2]
        }
        END {
            found[program] = 1
            for (i = lines; i > 0; i--)
                for (k = lines; k > 0; k--)
                    if (name[k] in found) {
                        count = split(below[name[k]], needs, " ")
                        for (j = 1; j <= count; j++) found[needs[j]] = 1
                    }
            for (i = 1; i <= lines; i++) if (name[i] in found) print name[i]
        }' "$here/crates.txt"
}

# The program is as new as all that it is made of.
is_built() {
    [ -x "$program" ] && [ -e "$mark" ] || return 1
    set -- "$here/crates.txt"
    for crate in $(crates); do
        for part in src specs proofs; do
            [ ! -d "$here/crates/$crate/$part" ] || set -- "$@" "$here/crates/$crate/$part"
        done
    done
    [ -z "$(find "$@" -newer "$mark" | head -n 1)" ]
}

# One call builds at a time. The lock of flock ends with its holder, however that ends; a folder as a lock is taken
# away as the holder ends.
lock() {
    if command -v flock >/dev/null; then
        exec 9>"$kept/lock" || exit 125
        flock -n 9 && return
        say "another call is building; waiting for it"
        flock 9 || exit 125
        return
    fi
    trap 'exit 129' HUP
    trap 'exit 130' INT
    trap 'exit 143' TERM
    waits=
    until mkdir "$kept/locked" 2>/dev/null; do
        [ -n "$waits" ] || say "another call is building; waiting for it (if there is none, remove $kept/locked)"
        waits=yes
        sleep 1
    done
    trap 'rmdir "$kept/locked"' EXIT
}

unlock() {
    if command -v flock >/dev/null; then
        exec 9>&-
    else
        rmdir "$kept/locked"
        trap - EXIT HUP INT TERM
    fi
}

# Keeps the lines of rt, and says which crate is at work and how far it is.
tell() {
    total=$(crates | wc -l)
    begun=
    while IFS= read -r line; do
        printf '%s\n' "$line"
        case $line in
            'rt: chose --jobs '*' for '*)
                crate=${line##* for }
                case " $begun " in
                    *" $crate "*) ;;
                    *) begun="$begun $crate" ;;
                esac
                # shellcheck disable=SC2086
                set -- $begun
                say "proving $crate ($# crates begun of at most $((total)); small ones aren't named)"
                ;;
            'so far: '*' functions checked'*)
                say "  ${line#so far: }"
                ;;
        esac
    done >"$log"
}

build() {
    command -v rt >/dev/null || fail "the Rattle toolchain's command rt is not on the PATH"
    building
    : >"$mark.new" || exit 125
    rm -f "$here/crates/$name/out/$name"
    # Built, the program is run once, on an empty input.
    # The words of $once are several, or none.
    # shellcheck disable=SC2086
    (CDPATH='' cd -- "$here/crates/$name" && rt run ${once:+-- $once} </dev/null 2>&1) 9>&- | tell
    if [ ! -x "$here/crates/$name/out/$name" ]; then
        tail -n 20 "$log" >&2
        fail "the program was not built; the whole log is $log"
    fi
    cp "$here/crates/$name/out/$name" "$program.new" && mv "$program.new" "$program" &&
        mv "$mark.new" "$mark" || exit 125
}

# The program is as new as its sources from here on.
make_ready() {
    is_built && return
    mkdir -p "$kept" || exit 125
    lock
    is_built || build
    unlock
}
