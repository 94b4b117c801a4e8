# Read by ./nyekushiro: takes a typed text through the proved program, and says what stands where in it.
# shellcheck shell=sh disable=SC2034,SC2154

longest=1048576 # bytes of a text: what the program reads
together="Keep all routines that may share a cell in one text; $parted"

# Sets listing to what the text in content gives. If it is refused: prints the line, says what it means, and ends with its status.
typed() {
    form=text
    if [ "$(printf '%s\n' "$content" | wc -w)" -gt "$longest" ]; then
        complain "the text is longer than 1 MiB ($longest bytes), and no more is read." \
            'is this a typed text? One of 128 nodes needs only a few thousand bytes.' || return
    fi
    # shellcheck disable=SC2086  # a word a byte
    ask_bytes typed $content
    listing=$made
    [ -z "$line" ] || refusal
}

# What tools/text.awk says of the text.
about() { # MODE [VARIABLE=VALUE]
    { [ "$1" != show ] || printf '%s\n\n' "$line"; printf '%s\n' "$content"; } |
        me=$me LC_ALL=C awk -v "mode=$1" -v "${2-place=-1}" -f "$root/tools/text.awk"
}

# What to do about a refusal of a text.
text_remedy() { # NUMBER
    # shellcheck disable=SC2046  # two numbers
    set -- "$1" $(about count)
    case $1-$2 in
    5-0) printf '%s\n' "the text has no words: type a routine, as $me help type shows. Or was an export cut off?" ;;
    5-*) printf '%s\n' "the text has $2 routines, and 16 is the most." "$together" ;;
    *) printf '%s\n' "the text gives $3 nodes, and 128 is the most: r, w, u, f and loop are one each, an either two." "$together" ;;
    esac
}

# Where the text has these nodes.
in_text() { # WHAT-THEY-ARE NODES..
    [ "$form" = text ] && [ $# -gt 1 ] || return 0
    say "$1"
    shift
    say "$(about named "wanted=$*")"
}
