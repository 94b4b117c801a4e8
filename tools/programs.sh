# Read by ./nyekushiro and by the tests, which set $root: finds the proved programs, proves and builds them where they are
# missing or older than their crates, and runs them.
# shellcheck shell=sh disable=SC2154

programs='judge propose fence show accept typed'
kit='' # what find_kit finds, never what the environment has

# What is said must not change what is answered: where standard error is full, the exit status still counts.
say() { printf '%s\n' "$*" >&2 2>/dev/null || :; }

complain() { # WHAT-IS-WRONG WHAT-TO-DO-NEXT
    say "nyekushiro: $1"
    say "Next: $2"
    return 2
}

# ---- finding

# Sets what run needs; proves and builds on first use.
prepare() {
    find_kit || return 2
    # crates.txt is there anyway, so a lock on it leaves no file behind. rt has it too: while a proof runs, even one whose
    # shell was killed, nobody builds over it.
    built || { alone && { built || build; }; } 9<"$root/crates.txt"
}

# Sets kit to the line that names the kit.
find_kit() {
    if ! command -v rt >/dev/null 2>&1; then
        complain "the command 'rt' of the Rattle kit is not on the PATH, and the programs are proved and built with it." \
            "put the kit's bin folder on the PATH, then try again." || return
    fi
    # what rt version prints, which takes a while
    kit=$(cat -- "$(dirname -- "$(dirname -- "$(readlink -f -- "$(command -v rt)")")")/KIT-ID" 2>/dev/null) || kit=$(rt version) || return 2
}

# Whether the programs stand, this kit proved them, and nothing that they are made from is newer than the beginning of that proof.
built() {
    for program in $programs; do
        [ -f "$root/target/bin/$program" ] || return 1
    done
    [ "$kit" = "$(cat "$root/target/first-use" 2>/dev/null)" ] && [ -z "$(newer_than target/first-use)" ]
}

# What was made or removed in the crates since. rt makes and removes their out/ itself.
newer_than() { # FILE
    (
        cd "$root" &&
            find crates crates.txt -path 'crates/*/out' -prune -o \( -type f -o -path 'crates/*/*' \) -newer "$1" -print
    ) | head -n 1
}

# ---- proving and building

# Waits until no other run builds here. Where no lock is to be had it goes on: two first runs at once are rare, and nobody could
# do anything about a message.
alone() {
    flock -n 9 2>/dev/null
    [ $? -eq 1 ] || return 0 # 1: another run has it
    say 'Another run is proving and building here: waiting until it ends.'
    flock 9 || :
}

build() {
    log=$root/target/first-use.log begun=$root/target/first-use.begun proof=''
    say "First use: proving the judge and building its programs. This takes minutes, once. The log: $log"
    # made before the proof starts, so that a file changed meanwhile is newer
    if ! { mkdir -p "$root/target" && printf '%s\n' "$kit" >"$begun" && true >"$log"; } 2>/dev/null; then
        rm -f "$begun"
        complain "the folder $root/target cannot be written." 'make room there, or ask its owner for leave to write.' || return
    fi
    trap 'halt 129' HUP
    trap 'halt 130' INT
    trap 'halt 143' TERM
    prove
    proved=$?
    trap - HUP INT TERM
    [ "$proved" -eq 0 ] || unproved || return
    put_programs "$begun" || return 2
    say 'Proved and built.'
    say
}

# Puts the programs where run finds them, from where rt leaves what it proved and built.
put_programs() { # BEGUN: has the kit's line, and was made before the proof began
    mkdir -p "$root/target/bin" || return
    for program in $programs; do
        new=$root/target/bin/$program.new
        cp -- "$root/crates/$program/out/$program" "$new" && mv -f -- "$new" "$root/target/bin/$program" || return
    done
    mv -f -- "$1" "$root/target/first-use"
}

# Runs rt and says what is proved meanwhile. It has a group of its own where setsid is there, so that halt ends all of it.
prove() {
    # rt builds a program to run it: on no input, which each answers with a refusal
    # shellcheck disable=SC2016,SC2046,SC2086  # the inner shell's own; no word where there is no setsid; a word a program
    (cd "$root" && exec $(command -v setsid) sh -c 'for program; do (cd "crates/$program" && rt run) || exit; done' - $programs) \
        </dev/null 2>"$log" >/dev/null &
    proof=$!
    shown=0 crates=$(crate_count)
    while kill -0 "$proof" 2>/dev/null; do
        progress
        sleep 0.2
    done
    progress
    wait "$proof"
}

# How many crates the programs stand on, themselves among them. The kit's own libraries have no line in crates.txt.
crate_count() {
    awk -F: -v wanted="$programs" '
        function visit(crate,    below, count, i) {
            if (!(crate in stands_on) || crate in visited) return
            visited[crate]
            crates++
            count = split(stands_on[crate], below, " ")
            for (i = 1; i <= count; i++) visit(below[i])
        }
        { sub(/#.*/, "") }
        NF == 2 { stands_on[$1] = $2 }
        END {
            count = split(wanted, program, " ")
            for (i = 1; i <= count; i++) visit(program[i])
            print crates + 0
        }' "$root/crates.txt"
}

# A line for each crate proved since the last look: rt names a crate when its check begins, and says how that ended.
progress() {
    for crate in $(awk '/^rt: chose .* for / { crate = $NF } /^logic=proved / { print crate }' "$log" | tail -n "+$((shown + 1))"); do
        shown=$((shown + 1))
        say "proved: $crate ($shown of $crates)"
    done
}

unproved() {
    rm -f "$begun"
    say 'nyekushiro: not proved, so nothing is judged. The log ends:'
    say "$(tail -n 12 "$log" | cut -c 1-160 | sed 's/^/    /')"
    say "Next: read its first complaint in $log"
    return 2
}

# A signal came.
halt() { # STATUS
    kill -s TERM -- "-$proof" 2>/dev/null || kill -s TERM "$proof" 2>/dev/null
    rm -f "$begun"
    exit "$1"
}

# ---- running

run() { # PROGRAM, its input on standard input
    "$root/target/bin/$1"
}

# A shell variable holds no zero byte, so bytes are kept as octal numbers of three digits.

# A file's bytes, - for standard input, at most MOST. Of a listing the programs read fewer than 2048, and answer a longer one as if it
# were cut off there.
octal() { # FILE [MOST]
    od -An -v -to1 -N "${2-2048}" -- "$1"
}

octal_of() { # NUMBERS..
    printf '%03o ' "$@"
}

bytes() { # OCTAL..
    [ $# -eq 0 ] && return
    # shellcheck disable=SC2059  # the bytes are the format
    printf "$(printf '\\%s' "$@")"
}
