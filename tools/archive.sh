# Read by tools/archive and bench/host-archive, at the top of the checkout, after tools/programs.sh: compiles the archive's crate over its
# libraries, as rt left them built.
# shellcheck shell=sh disable=SC2154

# The crates that a crate of ours stands on, or only those that its own line names.
below() { # CRATE [line]
    awk -F: -v crate="$1" -v only="${2-}" '
        function visit(crate,    name, count, i) {
            count = split(stands_on[crate], name, " ")
            for (i = 1; i <= count; i++) if (!(name[i] in found)) {
                found[name[i]]
                print name[i]
                if (only == "") visit(name[i])
            }
        }
        { sub(/#.*/, ""); split($1, word, " "); stands_on[word[1]] = $2 }
        END { visit(crate) }' crates.txt
}

# Whether the libraries below the archive stand as rt ci proved them under ./test: nothing has changed since that began, and no other
# command built one, which would have left its stamp there.
over_gate() {
    find_kit && [ "$kit" = "$(cat target/first-use 2>/dev/null)" ] && [ -z "$(newer_than target/first-use)" ] || return
    for crate in $(below nyekushiro); do
        [ -d "crates/$crate" ] || continue # the kit's
        [ -d "crates/$crate/out/rlib/$crate.rlib" ] && [ ! -e "crates/$crate/out/rlib/stamp" ] || return
    done
}

# Proves the archive's crate and compiles it, with the tools of a folder.
compile() { # KIT-FOLDER TOOLCHAIN ARCHIVE
    from=$1 tools=$2 archive=$3
    set -- --extern "std=$from/rlibs/std.rlib" -L "dependency=$from/rlibs"
    for crate in $(below nyekushiro line); do
        [ ! -d "crates/$crate" ] || set -- "$@" --extern "$crate=crates/$crate/out/rlib/$crate.rlib"
        [ -d "crates/$crate" ] || set -- "$@" --extern "$crate=$from/rlibs/$crate.rlib"
    done
    for crate in $(below nyekushiro); do
        [ ! -d "crates/$crate" ] || set -- "$@" -L "dependency=crates/$crate/out/rlib"
    done
    "$from/bin/rattle" build --crate-name nyekushiro crates/nyekushiro/src/lib.rt --crate-type staticlib "$@" --jobs 2 \
        --antt-project "$from/rattle/logic/antt-project.json" --logic-built "$from/logic_built" --toolchain "$tools" --backend llvm -o "$archive"
}
