# Read by ./nyekushiro: what an answer means, and what to do next. It has from there $root, $me (how it was called), what was asked
# ($command, $q, $file, $nodes, $form, $listing), and $named, which stands before what is said of one file among several.
# shellcheck shell=sh disable=SC2154

# A row of the word table: sets number, name and words.
row() { # WHAT NUMBER-OR-NAME
    while read -r what number name words; do
        if [ "$what $number" = "$1 $2" ] || [ "$what $name" = "$1 $2" ]; then return; fi
    done <"$root/tools/words.txt"
    return 1
}

# ---- commands that can be pasted

# A word as the shell takes it back.
quoted() { # WORD
    case $1 in
    '' | *[!A-Za-z0-9_./:@%+,-]*) ;;
    *)
        printf %s "$1"
        return
        ;;
    esac
    rest=$1 before=''
    while [ "$rest" != "${rest#*\'}" ]; do
        before=$before${rest%%\'*}"'\\''"
        rest=${rest#*\'}
    done
    printf "'%s'" "$before$rest"
}

pasted() { # WORDS..: this command with these words
    printf %s "$me"
    for word in "$@"; do printf ' %s' "$(quoted "$word")"; done
    [ "$file" != - ] || printf ' # with the same standard input'
}

# ---- refusals

# Each routine of the fader alone is robust, both together are open: so a listing leaves out no routine that shares a cell.
parted='only groups that share no cell and have no unknown location may be parted.'
smaller="Keep all routines that may share a cell in one listing; take out plain nodes; $parted"

remedy() { # NUMBER PLACE
    case $1 in
    1) echo 'ask 1, 2, 3, 4, 5 or 6, or one of sc-x86, sc-armv7, x86-armv7, armv8-armv7, sc-armv8, x86-armv8.' ;;
    2 | 3 | 4)
        echo 'is this a listing? One starts with the bytes 4F 52 44 (ORD), then 01 00 or 02 00 (version 1 or 2).'
        echo 'A typed text does not start with ORD and has no zero byte: save it as plain text, not as UTF-16.'
        ;;
    5) echo 'byte 5 is the routine count F; it must be 1 to 16.' ;;
    6) printf '%s\n' 'byte 6 is the node count N; it must be at most 128.' "$smaller" ;;
    7) echo 'byte 6 says N nodes; the file must have 7 + 6N bytes. Was it cut off, or is something appended?' ;;
    13) printf '%s\n' "a node is named that the listing has not. Name nodes 0 to N-1, which this lists: $(pasted show "$file")" ;;
    15)
        case $command in accept) few=' Name fewer nodes.' ;; *) few='' ;; esac
        printf '%s\n' "the listing with its fences has over 128 nodes.$few" "$smaller"
        ;;
    18)
        echo "does the code get to node $2? Then a link was forgotten: look for that first, and put it in."
        echo "Is routine $routine entered at node $2? Then number that node first; if at node $entry too, put a plain node first that leads to both."
        echo 'Neither? Then it never runs: take it out.'
        ;;
    *)
        echo "correct node $2: its six bytes start at byte $((7 + 6 * $2)) of the listing."
        case $1 in
        9) echo 'The second of them is the kind. Kinds 5 to 9 are of version 2 only: bytes 3 and 4 of the listing are then 02 00.' ;;
        10) echo 'The third and fourth are the location, 00 00 where the kind is plain or a fence, be it full, load or store.' ;;
        esac
        ;;
    esac
}

refused() { # NUMBER PLACE
    row refusal "$1" || stop "$root/tools/words.txt has no refusal $1." "put the repository's own file back."
    case $name in
    -) say "${named}Refused by rule $1: $words." ;;
    *) say "${named}Refused by rule $1 at $name $2: $words." ;;
    esac
    case $form-$1 in
    text-17) say "$(about wrong "place=$2")" ;;
    text-5 | text-6) say "Next: $(text_remedy "$1")" ;;
    *) advise "$1" "$2" ;;
    esac
}

# Says what to do next; of a node that is cut off, from where, first.
advise() { # NUMBER PLACE
    [ "$1" != 18 ] || cut_off "$2"
    say "Next: $(remedy "$1" "$2")"
}

# Says of which routine a node is that no walk from the entry reaches, and which other nodes are so. Sets routine and entry.
cut_off() { # NODE
    # shellcheck disable=SC2046  # a word a number
    set -- "$1" $(printf '%s\n' "$listing" | awk -v "node=$1" '
        { for (i = 1; i <= NF; i++) byte[bytes++] = 64 * substr($i, 1, 1) + 8 * substr($i, 2, 1) + substr($i, 3, 1) }
        function reach(n) { if (n != 255 && !(n in reached)) { reached[n]; more = 1 } }
        END {
            for (n = 0; n < byte[6]; n++) if (!(byte[7 + 6 * n] in entry)) { entry[byte[7 + 6 * n]] = n; reach(n) }
            while (more) {
                more = 0
                for (n = 0; n < byte[6]; n++) if (n in reached) { reach(byte[11 + 6 * n]); reach(byte[12 + 6 * n]) }
            }
            print byte[7 + 6 * node], entry[byte[7 + 6 * node]]
            for (n = 0; n < byte[6]; n++) if (!(n in reached) && n != node) print n
        }')
    node=$1 routine=$2 entry=$3
    shift 3
    say "Node $node is of routine $routine, whose entry is its lowest-numbered node, $entry. No walk from node $entry reaches node $node."
    case $# in
    0) ;;
    1) say "Cut off too: node $1." ;;
    *) say "Cut off too: nodes $*." ;;
    esac
}

# ---- answers

# Says what a program's line means, and ends with the exit status for it.
meaning() { # THE LINE'S WORDS..
    kind=$1
    shift
    case $kind in
    OPEN) circle "$@" && return 1 ;;
    PROPOSED) proposal "$@" ;;
    ACCEPTED) acceptance "$nodes" ;;
    REFUSED) refused "$@" && return 2 ;;
    esac
}

circle() { # FIRST SECOND COUNT PAIRS..
    case $nodes in '') nothing=Nothing ;; *) nothing='With these fences nothing' ;; esac
    say "$named$nothing assures that others see node $1 before $(second "$1-$2"). The circle in which that shows:"
    from=$1 here=''
    shift 3
    pairs=$*
    walk="node $from, then $(second "$1")" hops=${1#*-}
    shift
    if [ $# -eq 0 ]; then # one pair alone: the circle is that of two threads which both take this step
        walk="$walk; which may touch the same cell as node $from of another thread on the same routine, then $(second "$pairs") there"
        here=' here'
    fi
    for pair in "$@"; do
        walk="$walk; which may touch the same cell as node ${pair%-*}, then $(second "$pair")"
        hops="$hops-${pair%-*} ${pair#*-}"
    done
    say "$walk; which may touch the same cell as node $from$here."
    writers=''
    for hop in $hops-$from; do reads "${hop%-*}" "${hop#*-}"; done
    # shellcheck disable=SC2046,SC2086  # a word a node
    in_text 'In the text:' $(echo "$pairs" | tr - ' ') $writers
    say "Next: $(pasted propose "$q" "$file")"
}

# The second node of a pair; a node follows itself in a loop.
second() { # PAIR
    case ${1%-*} in
    "${1#*-}") echo "node ${1#*-} of a later round" ;;
    *) echo "node ${1#*-}" ;;
    esac
}

# Two reads meet because somebody writes their cell: of a hop between two, says who may. Adds that node to writers.
reads() { # NODE NODE
    # shellcheck disable=SC2086  # a word a byte
    read_at "$1" $listing && one=$at && read_at "$2" $listing && writer "$one" "$at" $listing || return 0
    writers="$writers $node"
    case $1 in
    "$2") say "Node $1 only reads; node $node may write what it reads." ;;
    *) say "Nodes $1 and $2 only read; node $node may write what they read." ;;
    esac
}

# Whether a node is a read, an acquire read or an acquirePC read: sets at to its location.
read_at() { # NODE OCTAL..: a listing's bytes
    shift $((8 + 6 * $1))
    at=$3$4
    case $2 in 001 | 005 | 011) ;; *) return 1 ;; esac
}

# The first write, release write or RMW that may meet accesses of both locations: sets node.
writer() { # LOCATION LOCATION OCTAL..: a listing's bytes
    one=$1 other=$2 node=0
    shift 9
    while [ $# -ge 6 ]; do
        case $2 in 002 | 003 | 006) overlap "$3$4" "$one" && overlap "$3$4" "$other" && return ;; esac
        shift 6
        node=$((node + 1))
    done
    return 1
}

overlap() { # LOCATION LOCATION: one of them unknown, or equal
    [ "$1" = 000000 ] || [ "$2" = 000000 ] || [ "$1" = "$2" ]
}

proposal() { # COUNT PLACES..
    say "$(places "$@")"
    [ "$1" -gt 0 ] || return 0
    shift
    in_text 'In the text, f goes after:' "$@"
    say "Next: $(pasted fence "$q" "$file")"
    say "To judge other places: $(pasted accept "$q" "$file" "$@")"
}

places() { # COUNT PLACES..
    count=$1
    shift
    case $count in
    0) echo 'By the rules no fence is needed.' ;;
    1) echo "A full fence after node $1." ;;
    *) echo "A full fence after each of these $count nodes: $*." ;;
    esac
}

acceptance() { # NODES
    case $1 in
    '') say 'The listing is robust as it is.' ;;
    *\ *) say "With a full fence after each of these nodes the listing is robust: $1." ;;
    *) say "With a full fence after node $1 the listing is robust." ;;
    esac
    # shellcheck disable=SC2086  # a word a node
    in_text 'In the text:' $1
}
