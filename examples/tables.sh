# Read by examples/test: holds the tables of examples/README.md and docs/EXAMPLES.md to what the programs answer. It has from there
# $here, $root, $room with the listings in made/, same and run.
# shellcheck shell=sh disable=SC2154

# the answers, a row a listing, and what each listing is, another row
"$here/table" >"$room/table"
while IFS= read -r row; do
    grep -Fxq -- "$row" "$here/README.md" || same 'examples/README.md' 'a row is missing or old' "$row"
done <"$room/table"
for made in "$room"/made/*.ord; do
    name=$(basename "$made" .ord)
    same "rows of $name in examples/README.md" "$(grep -c "^| $name |" "$here/README.md")" 2
done

# The tables of steps, 'NAME NODE FIRST' a node: in the column of a listing ';' stands between accesses of the code, and a blank between
# the nodes of one access that the text has several times, the first of which is FIRST.
awk -F' *[|] *' '
    /^[|] Step [|]/ { for (c = 3; c < NF; c++) listing[c] = $c; steps = 1; next }
    !/^[|]/ { steps = 0 }
    steps && !/^[|]-/ {
        for (c = 3; c < NF; c++) {
            count = split($c, access, / *; */)
            for (i = 1; i <= count; i++) {
                copies = split(access[i], node, " ")
                for (k = 1; k <= copies; k++) print listing[c], node[k], node[1]
            }
        }
    }' "$here/README.md" >"$room/steps"
steps=$(cut -d ' ' -f 1,3 "$room/steps" | sort -u | wc -l)
[ "$steps" -gt 0 ] || same 'examples/README.md' 'has no table of steps' 'has some'

# each access and fence of a listing stands there once, with those that are alike
cut -d ' ' -f 1 "$room/steps" | sort -u | while IFS= read -r name; do
    run show <"$room/made/$name.ord" | sed -n "/, plain, /!s/^node \([0-9]*\): \(.*\), [^,]*$/$name \1 \2/p"
done >"$room/shown"
awk '
    function wrong(what) { print "the steps of " $1 " have node " $2 ", " what }
    FNR == NR { node = $1 " " $2; sub(/^[^ ]* [^ ]* /, ""); is[node] = $0; next }
    { node = $1 " " $2; first = $1 " " $3 }
    !(node in is) { wrong("which is no access and no fence") }
    is[node] != is[first] { wrong("which is not as node " $3) }
    seen[node]++ { wrong("twice") }
    END { for (node in is) if (!(node in seen)) print "the steps lack " node }' "$room/shown" "$room/steps" >"$room/unlike"
same 'examples/README.md' "$(cat "$room/unlike")" ''

# beside published answers: ROBUST, or OPEN with the number of accesses of the code that get a fence
awk '
    FNR == NR { first[$1, $2] = $3; next }
    !/: REFUSED/ {
        split($0, part, /[ :;]+/)
        nodes = split(substr($0, index($0, "PROPOSED ") + 9), node, " ")
        split("", fenced)
        count = 0
        for (k = 2; k <= nodes; k++) {
            access = (part[1], node[k]) in first ? first[part[1], node[k]] : node[k]
            if (!(access in fenced)) { fenced[access]; count++ }
        }
        print part[1] "|" part[2] "|" (part[3] == "ROBUST" ? "ROBUST" : "OPEN, " count)
    }' "$room/steps" "$here/expected" >"$room/beside"
awk -F' *[|] *' '
    FNR == NR { expected[$1, $2] = $3; next }
    ($2, $4) in expected { rows++ }
    ($2, $4) in expected && $5 != expected[$2, $4] { print $2 ", question " $4 " is " $5 ", should be " expected[$2, $4] }
    END { if (rows == 0) print "has no row" }' "$room/beside" "$root/docs/EXAMPLES.md" >"$room/unlike"
same 'docs/EXAMPLES.md' "$(cat "$room/unlike")" ''
