# Read by examples/test: holds docs/TYPING.md to the programs. Each of its texts, a block ```typed, has a table of its nodes and may have
# answers, a block ```answers; each text of its table of refusals is refused so. It has from there $root, $room, same, run and asked.
# shellcheck shell=sh disable=SC2154

page=$root/docs/TYPING.md
mkdir "$room/page"
awk -v room="$room/page" '
    /^```typed$/ { texts++; into = room "/" texts ".text"; next }
    /^```answers$/ { into = room "/" texts ".answers"; next }
    /^```/ { into = "" }
    /^[|] Node [|] Typed [|] It is [|] Leads to [|]$/ { tables++; into = room "/" texts ".nodes"; getline; next }
    /^[|] No[.] [|] Text [|] Place [|]/ { into = room "/refusals"; getline; next }
    into ~ /nodes$|refusals$/ && !/^[|]/ { into = "" }
    into != "" { print >into }
    END { print texts + 0, tables + 0 }' "$page" >"$room/counted"
read -r taught tables <"$room/counted"
[ "$taught" -gt 0 ] || same docs/TYPING.md 'has no text' 'has some'
same 'tables of nodes in docs/TYPING.md' "$tables" "$taught"

# What was typed for each node of a text that typed takes, a line a node.
typed_for() { # TEXT
    tr -s ' \r\n' '\n' <"$1" | awk '
        access != "" { print "`" access " " $0 "`"; access = ""; next }
        /^[rwu]$/ { access = $0 }
        /^(f|loop|either)$/ { print "`" $0 "`" }
        /^(routine|loop|either)$/ { block[++open] = $0 }
        $0 == "}" && block[open] == "either" { block[open] = "second"; next }
        $0 == "}" { if (block[open] == "second") print "the end of `either`"; open-- }'
}

for text in "$room"/page/*.text; do
    of=${text%.text}
    what="docs/TYPING.md, its text '$(tr -s ' \n' ' ' <"$text")'"
    run typed <"$text" >"$of.ord"
    typed_for "$text" >"$of.words"
    run show <"$of.ord" | sed -n 's/^node \([0-9]*\): routine [0-9]*, \([^,]*\), \(then \)\{0,1\}\([^,]*\)$/\1 | \2 | \4 |/p' |
        paste -d '|' - "$of.words" | awk -F' *[|] *' '{ print "| " $1 " | " $5 " | " $2 " | " $3 " |" }' >"$of.rows"
    same "$what" "$(cat "$of.nodes")" "$(cat "$of.rows")"
    [ -f "$of.answers" ] || continue
    while read -r name line; do
        question=$(sed -n "s/^question \([0-9]*\) ${name%:} .*/\1/p" "$root/tools/words.txt")
        case $line in PROPOSED*) program=propose ;; *) program=judge ;; esac
        same "$what, $name" "$line" "$(asked "$question" "$of.ord" | run "$program")"
    done <"$of.answers"
done

# items among the sentences can stand in a routine
# shellcheck disable=SC2016  # the page's own marks
grep -v '^| [0-9N]' "$page" | grep -oE '`[^`]*`' | grep -E '^`([rwu] [0-9]|f`|loop [{]|either [{])' | tr -d '`' | grep -vF .. >"$room/page/items"
while IFS= read -r items; do
    echo "routine { $items }" | run typed >"$room/page/item"
    same "docs/TYPING.md, '$items'" "$(head -c 3 "$room/page/item")" ORD
done <"$room/page/items"
[ -s "$room/page/items" ] || same docs/TYPING.md 'has no items among its sentences' 'has some'

# `(f )x3` is what the brackets hold, three times; \t is a TAB, \n the end of a line
refusals=0
while IFS='|' read -r _ number text place because _; do
    text=$(printf '%s\n' "$text" | awk '{
        sub(/^[^`]*`/, ""); sub(/`[^`]*$/, "")
        while (match($0, /\([^()]*\)x[0-9]+/)) {
            found = substr($0, RSTART, RLENGTH); rest = substr($0, RSTART + RLENGTH); $0 = substr($0, 1, RSTART - 1)
            times = found; sub(/.*x/, "", times); sub(/^\(/, "", found); sub(/\)x[0-9]+$/, "", found)
            while (times-- > 0) $0 = $0 found
            $0 = $0 rest
        }
        print
    }')
    refusals=$((refusals + 1))
    # shellcheck disable=SC2086  # blanks stand around the numbers
    set -- $number $place
    printf %b "$text" | run typed >"$room/page/refused"
    # no program lends too few bytes, so of 16 this sees only how many the listing has
    case $1 in
    16) same "docs/TYPING.md, '$text'" "${because##* of }" "$(wc -c <"$room/page/refused") " ;;
    *) same "docs/TYPING.md, refused: '$text'" "REFUSED $*" "$(cat "$room/page/refused")" ;;
    esac
done <"$room/page/refusals"
[ "$refusals" -gt 0 ] || same docs/TYPING.md 'has no refusal' 'has some'
