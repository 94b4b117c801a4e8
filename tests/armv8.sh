# Read by tests/cli: tries questions 5 and 6, and every command with listings of version 2.
# shellcheck shell=sh disable=SC2154,SC2059

# ---- the questions, by number and by name, of a listing of version 1 and of a text; the fences put in are those of question 3

for question in 5 sc-armv8; do
    try 1 'OPEN 0 1 2 0-1 2-3' "Next: $root/nyekushiro propose 5 $fader" judge "$question" "$fader"
    try 1 'OPEN 0 1 2 0-1 2-3' '' judge "$question" "$case_a"
    try 0 'PROPOSED 2 0 2' 'A full fence after each of these 2 nodes: 0 2.' propose "$question" "$case_a"
done
for question in 6 x86-armv8; do
    try 1 'OPEN 0 1 2 0-1 2-3' "Next: $root/nyekushiro propose 6 $fader" judge "$question" "$fader"
    try 0 ROBUST '' judge "$question" "$case_a"
    try 0 'PROPOSED 0' 'By the rules no fence is needed.' propose "$question" "$case_a"
done
try 1 'OPEN 0 1 2 0-1 2-3' '' judge sc-armv8 "$text"
said "Nothing assures that others see node 0 before node 1. The circle in which that shows:
node 0, then node 1; which may touch the same cell as node 2, then node 3; which may touch the same cell as node 0.
In the text:
    node 0: line 1, column 11: w 1
    node 1: line 1, column 15: w 2
    node 2: line 2, column 11: r 2
    node 3: line 2, column 15: r 1
Next: $root/nyekushiro propose 5 $text" judge sc-armv8 fader.txt
try 0 ACCEPTED '' accept x86-armv8 "$text" 0 2
for question in 5 6; do
    try 0 '' "Written: $room/eight.ord" fence "$question" "$text" "$room/eight.ord"
    cmp -s "$fenced" "$room/eight.ord" || wrong 'another listing than under question 3' fence "$question" fader.txt
done

# ---- version 2: a release and an acquire are kept in order on ARMv8, and are a write and a read under the old questions

passing=$root/examples/message-passing-armv8.ord
for question in 1 5 sc-armv8 6 x86-armv8; do try 0 ROBUST '' judge "$question" "$passing"; done
said '' judge x86-armv8 message-passing-armv8.ord
for question in 2 3; do try 1 'OPEN 0 1 2 0-1 2-3' '' judge "$question" "$passing"; done
try 1 'OPEN 2 3 2 2-3 0-1' '' judge 4 "$passing"
cp "$passing" "$room/in"
try 0 ROBUST '' judge 5 -
: >"$room/in"
try 0 ACCEPTED 'The listing is robust as it is.' accept 5 "$passing"
try 0 any '' fence 5 "$passing" -
cmp -s "$passing" "$room/out" || wrong 'other bytes than the listing needs' fence 5 message-passing-armv8.ord -
try 0 ROBUST '' judge 5 "$root/examples/store-buffering-armv8.ord"
try 0 ROBUST '' judge 5 "$root/examples/fader-armv8.ord"

# a fence put in is a full one, and the version stays
spinlock=$root/examples/spinlock-armv8.ord
try 1 'OPEN 1 2 2 1-2 2-4' "Next: $root/nyekushiro propose 5 $spinlock" judge 5 "$spinlock"
try 0 'PROPOSED 1 1' 'A full fence after node 1.' propose sc-armv8 "$spinlock"
try 0 ACCEPTED 'With a full fence after node 1 the listing is robust.' accept 6 "$spinlock" 1
try 1 'OPEN 1 2 2 1-2 2-4' 'With these fences nothing assures that others see node 1 before node 2.' accept 6 "$spinlock" 0
try 2 'REFUSED 13 0' "which this lists: $root/nyekushiro show $spinlock" accept 6 "$spinlock" 5
cp "$spinlock" "$room/lock.ord"
try 0 '' "Written: $room/lock.fenced.ord" fence 5 "$room/lock.ord"
{
    printf 'ORD\002\000\001\006\000\005\001\000\000\001\000\003\001\000\005\377\000\001\002\000\003\377'
    printf '\000\002\002\000\004\377\000\006\001\000\377\377\000\004\000\000\000\002'
} >"$room/eight.ord"
cmp -s "$room/eight.ord" "$room/lock.fenced.ord" || wrong 'not the listing with a full fence, or not of version 2' fence 5 lock.ord
try 0 'node 0: routine 0, acquire read cell 1, then 0 or 1
node 1: routine 0, read-modify-write cell 1, then 5
node 2: routine 0, read cell 2, then 3
node 3: routine 0, write cell 2, then 4
node 4: routine 0, release write cell 1, end
node 5: routine 0, fence, then 0 or 2' '' show "$room/lock.fenced.ord"
for question in 5 6; do try 0 ROBUST '' judge "$question" "$room/lock.fenced.ord"; done
try 0 '' "Written: $room/lock.fenced.ord (replaced)" fence 2 "$spinlock" "$room/lock.fenced.ord"

listing() { # BYTES: into $typed, which is then a listing
    printf "$1" >"$typed"
}

# all kinds in words
listing 'ORD\002\000\001\003\000\007\000\000\001\377\000\010\000\000\002\377\000\011\001\200\000\377'
try 0 'node 0: routine 0, load fence, then 1
node 1: routine 0, store fence, then 2
node 2: routine 0, acquirePC read block 32769, then 0' '' show "$typed"

# a circle from a read to a read: acquire and acquirePC only read too, and a release writes
{
    printf 'ORD\002\000\004\006\000\006\001\000\377\377\001\006\002\000\377\377'
    printf '\002\005\001\000\003\377\002\011\002\000\377\377\003\011\002\000\005\377\003\001\001\000\377\377'
} >"$typed"
try 1 'OPEN 2 3 2 2-3 4-5' 'Nodes 3 and 4 only read; node 1 may write what they read.' judge 2 "$typed"
says 'Nodes 5 and 2 only read; node 0 may write what they read.' judge 2 iriw of version 2
for question in 5 6; do try 0 ROBUST '' judge "$question" "$typed"; done

# one pair alone closes the circle, but not where ARMv8 keeps it in order, or a store fence bars: write and release, both unknown; two unknown
# writes with a store fence between; an acquirePC read of a block in a loop, and an unknown release
closes() { # PAIR LISTING
    listing "$2"
    for question in 2 3; do try 1 "OPEN ${1%-*} ${1#*-} 1 $1" 'of another thread on the same routine' judge "$question" "$typed"; done
    for question in 5 6; do
        try 0 ROBUST '' judge "$question" "$typed"
        said '' judge "$question" "$2"
    done
}
closes 0-1 'ORD\002\000\001\002\000\002\000\000\001\377\000\006\000\000\377\377'
closes 0-2 'ORD\002\000\001\003\000\002\000\000\001\377\000\010\000\000\002\377\000\002\000\000\377\377'
closes 0-0 'ORD\002\000\002\002\000\011\001\200\000\377\001\006\000\000\377\377'
try 1 'OPEN 0 0 1 0-0' 'Node 0 only reads; node 1 may write what it reads.' judge 4 "$typed"

# ---- what starts with ORD is a listing, of whatever version; refusals of version and kinds, and what to do next

listing 'ORD\002\000\001\000'
try 0 ROBUST '' judge 5 "$typed"
try 0 'no node' '' show "$typed"
for version in '\000\000' '\003\000' '\002\001'; do
    listing "ORD$version\\001\\000"
    try 2 'REFUSED 4 0' 'Refused by rule 4: version not 1 or 2.' judge 5 "$typed"
    says 'One starts with the bytes 4F 52 44 (ORD), then 01 00 or 02 00 (version 1 or 2).' judge 5 of version "$version"
done
for number in '001-005' '001-006' '001-007' '001-010' '001-011' '002-012' '002-377'; do
    listing "ORD\\${number%-*}\\000\\001\\001\\000\\${number#*-}\\000\\000\\377\\377"
    try 2 'REFUSED 9 0' 'Refused by rule 9 at node 0: kind over 4 in version 1, over 9 in version 2.' judge 5 "$typed"
    says 'Kinds 5 to 9 are of version 2 only: bytes 3 and 4 of the listing are then 02 00.' judge 5 "$number"
    try 2 'REFUSED 9 0: kind over 4 in version 1, over 9 in version 2 (node 0)' 'Next: correct node 0: its six bytes start at byte 7' show "$typed"
done
for kind in 000 004 007 010; do
    listing "ORD\\002\\000\\001\\002\\000\\005\\001\\000\\001\\377\\000\\$kind\\000\\001\\377\\377"
    try 2 'REFUSED 10 1' 'Refused by rule 10 at node 1: kind 0, 4, 7 or 8 with a location other than 0.' judge 6 "$typed"
    try 2 '' 'REFUSED 10 1' fence 6 "$typed" -
    says 'Next: correct node 1: its six bytes start at byte 13 of the listing.' fence 6 "a location of kind $kind, octal"
    says 'The third and fourth are the location, 00 00 where the kind is plain or a fence' fence 6 "a location of kind $kind, octal"
done
