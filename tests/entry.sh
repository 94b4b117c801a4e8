# Read by tests/cli: tries every command with listings that have a node which its routine's entry does not reach, and what is said of it.
# shellcheck shell=sh disable=SC2154,SC2059

dead=$root/examples/cut-off.ord mended=$root/examples/cut-off-mended.ord

facts() { # NODE ROUTINE ENTRY [CUT-OFF-TOO]: what is said of a node that is cut off, and what to do next
    echo "Node $1 is of routine $2, whose entry is its lowest-numbered node, $3. No walk from node $3 reaches node $1."
    [ -z "${4-}" ] || echo "Cut off too: $4."
    echo "Next: does the code get to node $1? Then a link was forgotten: look for that first, and put it in."
    echo "Is routine $2 entered at node $1? Then number that node first; if at node $3 too, put a plain node first that leads to both."
    echo 'Neither? Then it never runs: take it out.'
}

refused_18() { # FILE NODE ROUTINE ENTRY [CUT-OFF-TOO]
    echo "$1Refused by rule 18 at node $2: node neither its routine's entry nor reached from it."
    shift
    facts "$@"
}

# ---- every command refuses it, and says the same

told=$(refused_18 '' 3 0 0 'node 4')
for question in 1 2 3 4 5 6; do
    for command in judge propose accept; do
        try 2 'REFUSED 18 3' '' "$command" "$question" "$dead"
        said "$told" "$command" "$question" cut-off.ord
    done
    try 2 'REFUSED 18 3' '' fence "$question" "$dead" "$room/dead.fenced.ord"
    said "$told" fence "$question" cut-off.ord
done
try 2 '' '' fence 5 "$dead" -
said "REFUSED 18 3
$told" fence 5 cut-off.ord -
[ ! -e "$room/dead.fenced.ord" ] || wrong 'a refusal wrote a file' fence
try 2 "REFUSED 18 3: node neither its routine's entry nor reached from it (node 3)" '' show "$dead"
said "$(facts 3 0 0 'node 4')" show cut-off.ord

# from standard input, and among others
cp "$dead" "$room/in"
for command in judge propose accept; do
    try 2 'REFUSED 18 3' '' "$command" 5 -
    said "$told" "$command" 5 -
done
try 2 '' 'REFUSED 18 3' fence 5 -
try 2 any 'Node 3 is of routine 0, whose entry is its lowest-numbered node, 0.' show -
: >"$room/in"
try 2 "$fader: OPEN 0 1 2 0-1 2-3
$dead: REFUSED 18 3
$mended: ROBUST" '' judge 5 "$fader" "$dead" "$mended"
says "$(refused_18 "$dead: " 3 0 0 'node 4' | head -n 1)" judge 5 three files
says 'Node 3 is of routine 0' judge 5 three files

# ---- 18 comes after 1 and after 12 on all nodes, and before 13 and 15

try 2 'REFUSED 1 0' 'question not 1 to 6' judge 7 "$dead"
try 2 'REFUSED 1 0' '' accept 0 "$dead" 3
for node in 0 3 6 7 254; do
    try 2 'REFUSED 18 3' '' accept 5 "$dead" "$node"
    said "$told" accept 5 cut-off.ord "$node"
done

entered() { # STATUS LINE LISTING: question 2 of these bytes
    printf "$3" >"$room/entered.ord"
    try "$1" "$2" '' judge 2 "$room/entered.ord"
}
x='\000\002\001\000' y='\000\002\002\000'
entered 2 'REFUSED 12 2' "ORD\\001\\000\\001\\003$x\\377\\377$y\\377\\377\\000\\001\\001\\000\\377\\000"
entered 2 'REFUSED 11 1' "ORD\\001\\000\\001\\002$x\\377\\377$y\\002\\377"
entered 2 'REFUSED 7 0' "ORD\\001\\000\\001\\002$x\\377\\377$y\\377\\377\\000"
# shellcheck disable=SC2046  # a word a byte
bytes $(octal_of 79 82 68 1 0 1 128) $(many '000 000 000 000 377 377' 128) >"$room/cut.ord"
try 2 'REFUSED 18 1' 'Cut off too: nodes 2 3 4 5 ' accept 1 "$room/cut.ord" 0
try 2 'REFUSED 18 1' ' 125 126 127.' propose 1 "$room/cut.ord"

# ---- the rehearsed listings of docs/RULES.md, each with its routine, its entry and what else is cut off

entered 2 'REFUSED 18 1' "ORD\\001\\000\\001\\002$x\\377\\377$y\\377\\377"
said "$(refused_18 '' 1 0 0)" judge 2 cut off
entered 2 'REFUSED 18 1' "ORD\\001\\000\\001\\003$x\\377\\377$y\\002\\377\\000\\001\\002\\000\\001\\377"
said "$(refused_18 '' 1 0 0 'node 2')" judge 2 a loop that nothing enters
entered 2 'REFUSED 18 1' "ORD\\001\\000\\001\\002\\000\\001\\001\\000\\377\\377$y\\000\\377"
said "$(refused_18 '' 1 0 0)" judge 2 numbered backward
entered 0 ROBUST "ORD\\001\\000\\001\\003$x\\002\\377\\000\\001\\002\\000\\377\\377$y\\001\\377"
said '' judge 2 entered from above
entered 2 'REFUSED 18 2' "ORD\\001\\000\\002\\003$x\\377\\377\\001\\002\\002\\000\\377\\377\\000\\001\\002\\000\\377\\377"
said "$(refused_18 '' 2 0 0)" judge 2 two routines
entered 2 'REFUSED 18 1' "ORD\\001\\000\\001\\004\\000\\000\\000\\000\\003\\377$x\\002\\377$y\\377\\377\\000\\001\\001\\000\\377\\377"
said "$(refused_18 '' 1 0 0 'node 2')" judge 2 the lowest of two
entered 0 ROBUST "ORD\\001\\000\\001\\002$x\\001\\377\\000\\001\\002\\000\\000\\377"

# the entry is the routine's own, and not the listing's first node; a second successor leads on as a first one does
entered 2 'REFUSED 18 3' "ORD\\001\\000\\002\\004\\001\\001\\001\\000\\002\\377$y\\377\\377\\001\\001\\001\\000\\377\\377$x\\377\\377"
said "$(refused_18 '' 3 0 1)" judge 2 an entry numbered 1
entered 0 ROBUST "ORD\\001\\000\\001\\003$x\\001\\002$x\\377\\377$x\\377\\377"

# ---- what is said to do next helps: the link put in; the node numbered first; a plain node first, where both are entered; or taken out

fade='\000\001\001\000\001\377\000\002\001\000\000\002' mixing='\001\005\002\000\006\377\001\001\001\000\377\377'
entered 1 'OPEN 0 2 2 0-2 2-3' "ORD\\002\\000\\002\\007$fade\\000\\006\\002\\000\\003\\377$x\\004\\377$y\\377\\377$mixing"
follows='\001\001\002\000\003\377\001\001\001\000\377\377'
entered 2 'REFUSED 18 1' "ORD\\001\\000\\002\\004$y\\377\\377$x\\000\\377$follows"
entered 1 'OPEN 0 1 2 0-1 2-3' "ORD\\001\\000\\002\\004$x\\001\\377$y\\377\\377$follows"
follows='\001\001\002\000\004\377\001\001\001\000\377\377'
entered 1 'OPEN 1 2 2 1-2 3-4' "ORD\\001\\000\\002\\005\\000\\000\\000\\000\\001\\002$x\\002\\377$y\\377\\377$follows"
for question in 5 6; do
    try 0 ROBUST '' judge "$question" "$mended"
    said '' judge "$question" cut-off-mended.ord
done

# what is written passes by itself, a fence after an entry and one after the last node too
try 0 '' '' fence 2 "$mended" "$room/entered.ord"
try 0 ROBUST '' judge 2 "$room/entered.ord"
try 0 ACCEPTED '' accept 2 "$mended" 0 1 2 3 4

# whoever writes a listing is told where a routine is entered
for page in "$room/help" "$root/docs/LISTING.md" "$root/docs/HANDOVER.md"; do
    tried=$((tried + 1))
    tr -s '\n *' ' ' <"$page" | grep -Fq -- 'lowest-numbered node is its entry' || wrong "$page does not say which node is a routine's entry"
done
