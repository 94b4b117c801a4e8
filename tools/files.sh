# Read by ./nyekushiro: reads listings and texts, and writes listings so that nothing is lost.
# shellcheck shell=sh disable=SC2034,SC2154

# Sets content to a file's bytes as octal numbers, one more than the longest text has at the most, or says why not.
take() { # FILE
    if [ "$1" = - ]; then
        content=$(octal - "$((longest + 1))" 2>/dev/null) || complain 'standard input cannot be read.' 'name the file instead.'
    elif [ ! -e "$1" ]; then
        complain "there is no file '$1'." "check the path, or try $(quoted "$root/examples/fader.txt")."
    elif [ -d "$1" ]; then
        complain "'$1' is a folder." "name one file in it, as $(quoted "$root/examples/fader.txt")."
    elif ! content=$(octal "$1" "$((longest + 1))" 2>/dev/null); then
        complain "the file '$1' cannot be read." 'ask its owner for leave to read it.'
    fi
}

# Whether content is a listing and no text: it starts with the mark ORD, or has a zero byte. Sets listing.
listed() {
    case $content in
    ' 117 122 104'* | *' 000'*) listing=$content ;;
    *) return 1 ;;
    esac
    # od writes 16 bytes a line, and no program reads more than 2048
    [ "${#content}" -lt 9000 ] || listing=$(printf '%s\n' "$content" 2>/dev/null | head -n 128)
}

# Whether these bytes are as many as a listing's heading says.
whole() { # OCTAL..
    [ $# -ge 7 ] && [ "$1 $2 $3" = '117 122 104' ] && [ $# -eq $((7 + 6 * 0$7)) ]
}

no_folder() { # OUT HOW-TO-NAME-ANOTHER
    if [ -d "$1" ] || [ "$1" != "${1%/}" ]; then complain "'$1' is a folder." "name a file in it: $2"; fi
}

# Whether nothing but a listing is lost where OUT is written. Sets instead to what is then said of that listing.
replaceable() { # OUT
    instead=''
    [ "$1" != - ] && [ -f "$1" ] && [ -s "$1" ] || return 0
    # opened out here: a path in /dev may be another file to the process that reads
    { start=$(octal - 3); } 2>/dev/null <"$1" && [ "$start" = ' 117 122 104' ] && instead=' (replaced)'
}

# Whether what is read, - for standard input, and OUT are one file.
same_file() { # FILE OUT
    case $1 in -) set -- /dev/stdin "$2" ;; esac
    [ "$2" != - ] && [ "$(readlink -f -- "$1")" = "$(readlink -f -- "$2")" ]
} 2>/dev/null

# Writes bytes to a file, or leaves it and its folder as they were. A device or a pipe has no bytes to keep and is written straight.
# A path in /dev or /proc may be another file to each process.
put() { # OUT OCTAL..
    place=$1
    shift
    case $place in /dev/* | /proc/*) straight=yes ;; *) straight=no ;; esac
    [ ! -e "$place" ] || [ -f "$place" ] || straight=yes
    if [ "$straight" = yes ]; then
        bytes "$@" >"$place"
    else
        place=$(readlink -f -- "$place") && replace "$place" "$@"
    fi
} 2>/dev/null

# Writes beside the file, then renames. A signal is kept until nothing is left beside.
replace() { # FILE OCTAL..
    old=$1 new=$1.$$ signal=0
    shift
    [ ! -e "$old" ] || [ -w "$old" ] || return
    trap 'signal=129' HUP
    trap 'signal=130' INT
    trap 'signal=143' TERM
    replaced=1
    if (set -C && : >"$new"); then
        if bytes "$@" >"$new" && like "$old" "$new" && [ "$signal" -eq 0 ] && mv -f -- "$new" "$old"; then
            replaced=0
        else
            rm -f -- "$new"
        fi
    fi
    trap - HUP INT TERM
    [ "$signal" -eq 0 ] || exit "$signal"
    return "$replaced"
}

# Gives a new file the mode of the old one, and its owner where that may be.
like() { # OLD NEW
    [ -e "$1" ] || return 0
    chown -- "$(stat -c %u:%g -- "$1")" "$2"
    chmod -- "$(stat -c %a -- "$1")" "$2"
}
