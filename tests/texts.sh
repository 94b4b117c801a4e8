# Read by tests/cli: tries every command with typed texts, and all that is said of each mistake in one.
# shellcheck shell=sh disable=SC2154,SC2059

text=$root/examples/fader.txt typed=$room/typed

said() { # WHOLE WORDS..: all of standard error
    whole=$1
    shift
    [ "$(cat "$room/err")" = "$whole" ] || wrong "said '$(cat "$room/err")', and should say '$whole'" "$@"
}

# ---- the commands take a text as they take its listing

try 1 'OPEN 0 1 2 0-1 2-3' '' judge 3 "$text"
said "Nothing assures that others see node 0 before node 1. The circle in which that shows:
node 0, then node 1; which may touch the same cell as node 2, then node 3; which may touch the same cell as node 0.
In the text:
    node 0: line 1, column 11: w 1
    node 1: line 1, column 15: w 2
    node 2: line 2, column 11: r 2
    node 3: line 2, column 15: r 1
Next: $root/nyekushiro propose 3 $text" judge 3 fader.txt
try 0 ROBUST '' judge sc-x86 "$text"
said '' judge sc-x86 fader.txt
try 0 'PROPOSED 2 0 2' '' propose 3 "$text"
said "A full fence after each of these 2 nodes: 0 2.
In the text, f goes after:
    node 0: line 1, column 11: w 1
    node 2: line 2, column 11: r 2
Next: $root/nyekushiro fence 3 $text
To judge other places: $root/nyekushiro accept 3 $text 0 2" propose 3 fader.txt
printf 'routine { w 1 f w 2 }\nroutine { r 2 f r 1 }\n' >"$typed"
try 0 ROBUST '' judge 3 "$typed"
writer='routine { loop { either { w 2 } { w 3 } w 1 } }'
printf '%s\n' "$writer" 'routine { loop { r 1 either { r 2 } { r 3 } } }' >"$typed"
try 0 'PROPOSED 3 7 9 10' '' propose 4 "$typed"
said "A full fence after each of these 3 nodes: 7 9 10.
In the text, f goes after:
    node 7: line 2, column 18: r 1
    node 9: line 2, column 31: r 2
    node 10: line 2, column 39: r 3
Next: $root/nyekushiro fence 4 $typed
To judge other places: $root/nyekushiro accept 4 $typed 7 9 10" propose 4 nested
printf '%s\n' "$writer" 'routine { loop { r 1 f either { r 2 f } { r 3 f } } }' >"$typed"
try 0 ROBUST '' judge 4 "$typed"
try 0 ACCEPTED '' accept 3 "$text" 2 0
said 'With a full fence after each of these nodes the listing is robust: 2 0.
In the text:
    node 2: line 2, column 11: r 2
    node 0: line 1, column 11: w 1' accept 3 fader.txt 2 0
try 0 ACCEPTED '' accept 1 "$text"
said 'The listing is robust as it is.' accept 1 fader.txt
try 1 'OPEN 2 3 2 2-3 0-1' 'With these fences nothing assures' accept 3 "$text" 0
try 2 'REFUSED 13 0' "which this lists: $root/nyekushiro show $text" accept 3 "$text" 4
try 2 'REFUSED 1 0' 'Next: ask 1, 2, 3, 4, 5 or 6' judge 7 "$text"
cp "$text" "$room/in"
try 1 'OPEN 0 1 2 0-1 2-3' 'In the text:' judge 3 -
try 0 ACCEPTED '' accept 3 - 0 2
: >"$room/in"
printf 'routine { w 1 }}' >"$typed"
try 2 "$text: OPEN 0 1 2 0-1 2-3
$fader: OPEN 0 1 2 0-1 2-3
$typed: REFUSED 17 14" "$typed: Refused by rule 17 at byte 14: bad text." judge 3 "$text" "$fader" "$typed"

# one pair alone closes the circle, where a location is unknown or a block
printf 'routine { w 0 w 40000 }' >"$typed"
try 1 'OPEN 0 1 1 0-1' '' judge 2 "$typed"
said "Nothing assures that others see node 0 before node 1. The circle in which that shows:
node 0, then node 1; which may touch the same cell as node 0 of another thread on the same routine, then node 1 there; which may touch the same cell as node 0 here.
In the text:
    node 0: line 1, column 11: w 0
    node 1: line 1, column 15: w 40000
Next: $root/nyekushiro propose 2 $typed" judge 2 'w 0 w 40000'
printf 'routine { w 40000 w 40001 }' >"$typed"
try 0 ROBUST '' judge 2 "$typed"
said '' judge 2 'w 40000 w 40001'

# where each node is typed: a loop, an either and where its blocks meet
printf 'routine { loop {\r\n  either { r 00001 }\r\n{ u 65535 } f }\r\n}' >"$typed"
try 0 'node 0: routine 0, plain, then 1 (line 1, column 11: loop)
node 1: routine 0, plain, then 2 or 3 (line 2, column 3: either)
node 2: routine 0, read cell 1, then 4 (line 2, column 12: r 00001)
node 3: routine 0, read-modify-write block 65535, then 4 (line 3, column 3: u 65535)
node 4: routine 0, plain, then 5 (line 3, column 11: } of either)
node 5: routine 0, fence, then 0 (line 3, column 13: f)' '' show "$typed"

# ---- a listing is told from a text by its bytes

printf 'ORD' >"$typed"
try 2 'REFUSED 2 0' 'fewer than 7 bytes' judge 1 "$typed"
printf 'routine { w 1 }\000' >"$typed"
try 2 'REFUSED 3 0' 'and has no zero byte: save it as plain text' judge 1 "$typed"
printf 'ORDER the panel { w 1 }' >"$typed"
try 2 'REFUSED 4 0' 'A typed text does not start with ORD' judge 1 "$typed"
printf 'routine ORD' >"$typed"
try 2 'REFUSED 17 8' '' judge 1 "$typed"
{ cat "$text" && head -c 4000 /dev/zero; } >"$typed"
try 2 'REFUSED 3 0' '' judge 1 "$typed"

# ---- type: beside the text, where asked, and to standard output

mkdir "$room/texts"
cp "$text" "$room/texts/a.txt"
cp "$text" "$room/texts/b"
try 0 '' '' type "$room/texts/a.txt"
said "Written: $room/texts/a.ord" type a.txt
try 0 '' "Written: $room/texts/b.ord" type "$room/texts/b"
try 0 '' "Written: $room/texts/c" type "$text" "$room/texts/c"
for name in a.ord b.ord c; do cmp -s "$fader" "$room/texts/$name" || wrong "another listing in $name" type; done
try 0 any '' type "$text" -
cmp -s "$fader" "$room/out" || wrong 'standard output is not the listing' type fader.txt -
cp "$text" "$room/in"
try 0 any '' type -
cmp -s "$fader" "$room/out" || wrong 'standard output is not the listing' type -
try 0 '' "Written: $room/texts/c" type - "$room/texts/c"
: >"$room/in"
try 0 '' "Written: $room/texts/a.fenced.ord" fence 3 "$room/texts/a.txt"
cmp -s "$fenced" "$room/texts/a.fenced.ord" || wrong 'another listing than of the listing' fence 3 a.txt
try 2 '' "write: $root/nyekushiro type TEXT [OUT]" type
try 2 '' "there is no file '$room/texts/none.txt'" type "$room/texts/none.txt"
try 2 '' "'$room' is a folder" type "$text" "$room"
try 2 '' "the file '$room/none/out' cannot be written" type "$text" "$room/none/out"
says "Next: name another place: $root/nyekushiro type $text OUT" type
try 2 '' "the file '/dev/full' cannot be written" type "$text" /dev/full

# never over the text, by whatever name
ln -s b "$room/texts/link"
ln -s a.txt "$room/texts/d.ord"
ln -s a.txt "$room/texts/d.txt"
try 2 '' "'$room/texts/a.txt' is the text itself." type "$room/texts/a.txt" "$room/texts/a.txt"
says "Next: name another file: $root/nyekushiro type $room/texts/a.txt OUT" type a.txt a.txt
try 2 '' 'is the text itself' type "$room/texts/b" "$room/texts/link"
try 2 '' 'is the text itself' type "$room/texts/d.txt"
try 2 '' 'is the text itself' fence 3 "$room/texts/a.txt" "$room/texts/a.txt"
"$root/nyekushiro" type - "$room/texts/a.txt" <"$room/texts/a.txt" 2>"$room/err"
ended $? 2 type - a.txt '<a.txt'
says 'is the text itself' type - a.txt '<a.txt'
# nor over another text, and a listing that is replaced is named
printf 'routine { r 7 }' >"$room/texts/e.txt"
try 2 '' "'$room/texts/a.txt' is no listing, and would be lost." type "$room/texts/e.txt" "$room/texts/a.txt"
says "Next: name another file: $root/nyekushiro type $room/texts/e.txt OUT" type e.txt a.txt
try 2 '' "'$room/texts/link' is no listing, and would be lost." type "$room/texts/e.txt" "$room/texts/link"
try 2 '' 'is no listing, and would be lost' fence 3 "$room/texts/e.txt" "$room/texts/a.txt"
rm "$room/texts/e.txt"
for name in a.txt b; do cmp -s "$text" "$room/texts/$name" || wrong "wrote over $name" type; done
try 0 '' '' type "$room/texts/a.txt"
said "Written: $room/texts/a.ord (replaced)" type a.txt again
try 0 '' '' type "$text" "$room/texts/c"
said "Written: $room/texts/c (replaced)" type fader.txt c
try 0 '' '' fence 3 "$room/texts/a.txt"
said "Written: $room/texts/a.fenced.ord (replaced)" fence 3 a.txt again
cp "$text" "$room/texts/own.txt"
holds "$room/texts" 'a.fenced.ord a.ord a.txt b b.ord c d.ord d.txt link own.txt'

# a full disk and a refusal leave all as it was
for out in own.ord a.ord; do
    (trap '' XFSZ && ulimit -f 0 && exec "$root/nyekushiro" type "$room/texts/own.txt" "$room/texts/$out") 2>/dev/null
    ended $? 2 type on a full disk
done
printf 'routine { w 1 }}' >"$room/texts/own.txt"
try 2 'REFUSED 17 14' 'bad text' type "$room/texts/own.txt"
try 2 'REFUSED 17 14' 'bad text' type "$room/texts/own.txt" "$room/texts/a.ord"
try 2 '' 'REFUSED 17 14' type "$room/texts/own.txt" -
try 2 '' 'REFUSED 17 14' fence 3 "$room/texts/own.txt" -
try 2 'REFUSED 17 14' 'bad text' fence 3 "$room/texts/own.txt"
try 2 'REFUSED 17 14' 'bad text' propose 3 "$room/texts/own.txt"
try 2 'REFUSED 17 14' 'bad text' accept 3 "$room/texts/own.txt" 0
try 2 'REFUSED 17 14' 'bad text' show "$room/texts/own.txt"
cmp -s "$fader" "$room/texts/a.ord" || wrong 'a refusal or a full disk changed OUT' type
holds "$room/texts" 'a.fenced.ord a.ord a.txt b b.ord c d.ord d.txt link own.txt'

# ---- every mistake: line and column, the line with a caret under the word, what could stand there, what to do

mistake() { # BYTES PLACE SAID
    printf "$1" >"$typed"
    try 2 "REFUSED 17 $2" '' type "$typed"
    said "Refused by rule 17 at byte $2: bad text.
$3" type "$1"
}
item='Here can stand: r, w, u, f, loop or either.'
more='Here can stand: r, w, u, f, loop, either or }.'
location='Here can stand: a location number, 0 to 65535.'
unknown_word="Next: correct it; $root/nyekushiro help type shows how a text is typed."

# braces glued to a word
mistake 'routine { r 1}' 12 "Line 1, column 13: '1}' cannot stand here.
   1 | routine { r 1}
     |             ^
$location
Next: put spaces around braces: '1 }'."
mistake 'routine {r 1 }\n' 8 "Line 1, column 9: '{r' cannot stand here.
   1 | routine {r 1 }
     |         ^
Here can stand: { for the block of routine.
Next: put spaces around braces: '{ r'."
mistake 'routine { loop{ r 1 } }' 10 "Line 1, column 11: 'loop{' cannot stand here.
   1 | routine { loop{ r 1 } }
     |           ^
$item
Next: put spaces around braces: 'loop {'."
mistake 'routine { loop { r 1 }}' 21 "Line 1, column 22: '}}' cannot stand here.
   1 | routine { loop { r 1 }}
     |                      ^
$more
Next: put spaces around braces: '} }'."

# capital letters, and words that mean an item
mistake 'Routine { r 1 }' 0 "Line 1, column 1: 'Routine' cannot stand here.
   1 | Routine { r 1 }
     | ^
Here can stand: routine.
Next: use small letters: 'routine'."
mistake 'routine { r 1 R 1 }' 14 "Line 1, column 15: 'R' cannot stand here.
   1 | routine { r 1 R 1 }
     |               ^
$more
Next: use small letters: 'r'."
mistake 'routine { write 1 }' 10 "Line 1, column 11: 'write' cannot stand here.
   1 | routine { write 1 }
     |           ^
$item
Next: write 'w' for it."
mistake 'routine { r 1 IF { r 1 } }' 14 "Line 1, column 15: 'IF' cannot stand here.
   1 | routine { r 1 IF { r 1 } }
     |               ^
$more
Next: write 'either' for it."
mistake 'routine { r 1 mfence }' 14 "Line 1, column 15: 'mfence' cannot stand here.
   1 | routine { r 1 mfence }
     |               ^
$more
Next: write 'f' for it."
for word in dmb DMB dsb fence lfence sfence; do
    mistake "routine { r 1 $word }" 14 "Line 1, column 15: '$word' cannot stand here.
   1 | routine { r 1 $word }
     |               ^
$more
Next: write 'f' for it if it orders all loads and stores; leave out one that orders only some."
done
for word in ldar LDAPR acquire stlr STLR release; do
    case $word in ld* | LD* | acq*) access=r ;; *) access=w ;; esac
    mistake "routine { $word 1 }" 10 "Line 1, column 11: '$word' cannot stand here.
   1 | routine { $word 1 }
     |           ^
$item
Next: write '$access N' for it; acquire and release are in listings of version 2 only."
done
for word in rmw CAS xchg cmpxchg swp swap ldrex ldxr ldaxr; do
    mistake "routine { $word 1 }" 10 "Line 1, column 11: '$word' cannot stand here.
   1 | routine { $word 1 }
     |           ^
$item
Next: write 'u N' if it always completes, else 'either { u N } { r N }'."
done
mistake 'routine { either { r 1 } else { r 2 } }' 25 "Line 1, column 26: 'else' cannot stand here.
   1 | routine { either { r 1 } else { r 2 } }
     |                          ^
Here can stand: { for the second block of either.
Next: either has two blocks, one after the other: 'either { .. } { .. }'."
mistake 'routine { r 1 else { r 2 } }' 14 "Line 1, column 15: 'else' cannot stand here.
   1 | routine { r 1 else { r 2 } }
     |               ^
$more
Next: either has two blocks, one after the other: 'either { .. } { .. }'."
mistake 'routine { jump }' 10 "Line 1, column 11: 'jump' cannot stand here.
   1 | routine { jump }
     |           ^
$item
$unknown_word"
mistake 'routin { r 1 }' 0 "Line 1, column 1: 'routin' cannot stand here.
   1 | routin { r 1 }
     | ^
Here can stand: routine.
$unknown_word"

# numbers
mistake 'routine { r 65536 }' 12 "Line 1, column 13: '65536' cannot stand here.
   1 | routine { r 65536 }
     |             ^
$location
Next: the largest location number is 65535."
mistake 'routine { r 000001 }' 12 "Line 1, column 13: '000001' cannot stand here.
   1 | routine { r 000001 }
     |             ^
$location
Next: write at most 5 digits."
mistake 'routine { r }' 12 "Line 1, column 13: '}' cannot stand here.
   1 | routine { r }
     |             ^
$location
Next: write the number of the location here, in digits; 0 if it may be any cell."
mistake 'routine { r -1 }' 12 "Line 1, column 13: '-1' cannot stand here.
   1 | routine { r -1 }
     |             ^
$location
Next: write the number of the location here, in digits; 0 if it may be any cell."
mistake 'routine { r1 }' 10 "Line 1, column 11: 'r1' cannot stand here.
   1 | routine { r1 }
     |           ^
$item
Next: put a space before the number: 'r 1'."
mistake 'routine { r 1 2 }' 14 "Line 1, column 15: '2' cannot stand here.
   1 | routine { r 1 2 }
     |               ^
$more
Next: write r, w or u before each number."
mistake 'routine { r 1, w 2 }' 12 "Line 1, column 13: '1,' cannot stand here.
   1 | routine { r 1, w 2 }
     |             ^
$location
Next: put nothing but spaces between words."

# blocks
mistake 'routine { }' 10 "Line 1, column 11: '}' cannot stand here.
   1 | routine { }
     |           ^
$item
Next: no block is empty, so put an item before it."
mistake 'routine { either { r 1 } { } }' 27 "Line 1, column 28: '}' cannot stand here.
   1 | routine { either { r 1 } { } }
     |                            ^
$item
Next: no block is empty, so put an item before it."
mistake 'routine { either { r 1 } r 2 }' 25 "Line 1, column 26: 'r' cannot stand here.
   1 | routine { either { r 1 } r 2 }
     |                          ^
Here can stand: { for the second block of either.
Next: write the second block of either here: '{ .. }'."
mistake 'routine { loop r 1 }' 15 "Line 1, column 16: 'r' cannot stand here.
   1 | routine { loop r 1 }
     |                ^
Here can stand: { for the block of loop.
Next: write the block of loop here: '{ .. }'."
mistake 'routine { r 1 { w 1 } }' 14 "Line 1, column 15: '{' cannot stand here.
   1 | routine { r 1 { w 1 } }
     |               ^
$more
Next: write loop or either before a block."
mistake 'routine { r 1 } }' 16 "Line 1, column 17: '}' cannot stand here.
   1 | routine { r 1 } }
     |                 ^
Here can stand: routine, or the text's end.
Next: take it out, since no block is open."
mistake 'routine { r 1 }\nw 1' 16 "Line 2, column 1: 'w' cannot stand here.
   2 | w 1
     | ^
Here can stand: routine, or the text's end.
Next: items stand in a routine: 'routine { .. }'."
mistake 'routine {\n  loop { r 1\n}\nroutine { w 1 }\n' 25 "Line 4, column 1: 'routine' cannot stand here.
   4 | routine { w 1 }
     | ^
$more
Next: end the routine before it with }; it has 1 open block, begun in line 1."
mistake 'routine { either { r 1 }\n{\nr 1 Routine' 31 "Line 3, column 5: 'Routine' cannot stand here.
   3 | r 1 Routine
     |     ^
$more
Next: end the routine before it with }; it has 2 open blocks, begun in lines 1 and 1."

# the ninth level
deep='routine {\nloop { either { r 1 } { loop { loop { loop { loop { loop {'
mistake "$deep loop { loop { r 1" 76 "Line 2, column 67: 'loop' cannot stand here.
   2 | ...op { loop { loop { loop { loop { loop { loop { r 1
     |                                            ^
Here can stand: r, w, u or f.
Next: loop and either stand at most 8 levels deep, and this is the ninth."
mistake "$deep either { f } { f either { f" 86 "Line 2, column 77: 'either' cannot stand here.
   2 | ...{ loop { loop { loop { either { f } { f either { f
     |                                            ^
Here can stand: r, w, u, f or }.
Next: loop and either stand at most 8 levels deep, and this is the ninth."
printf "$deep either { f } { f } } } } } } } } }" >"$typed"
try 0 any '' type "$typed" -

# bytes that are no letters: the terminal sees none of them, and the caret stays under the word
mistake 'routine {\n\tr 1\n}\n' 10 "Line 2, column 1: '\\tr' cannot stand here.
   2 | \\tr 1
     | ^
$item
Next: a TAB is no blank here, so put spaces in its place."
mistake 'routine { r\t1\tw\t2 }' 10 "Line 1, column 11: 'r\\t1\\tw\\t2' cannot stand here.
   1 | routine { r\\t1\\tw\\t2 }
     |           ^
$item
Next: a TAB is no blank here, so put spaces in its place."
mistake '\357\273\277routine { r 1 }' 0 "Line 1, column 1: '\\xEF\\xBB\\xBFroutine' cannot stand here.
   1 | \\xEF\\xBB\\xBFroutine { r 1 }
     | ^
Here can stand: routine.
Next: save the text without a byte order mark."
mistake 'routine { r 1\302\240w 1 \033[2J }' 12 "Line 1, column 13: '1\\xC2\\xA0w' cannot stand here.
   1 | routine { r 1\\xC2\\xA0w 1 \\x1B[2J }
     |             ^
$location
Next: use plain letters, digits and braces; other bytes are shown as \\xNN."
mistake 'routine { r 1 }\000' 14 "Line 1, column 15: '}\\x00' cannot stand here.
   1 | routine { r 1 }\\x00
     |               ^
$more
Next: use plain letters, digits and braces; other bytes are shown as \\xNN."
mistake 'routine { # the panel\n' 10 "Line 1, column 11: '#' cannot stand here.
   1 | routine { # the panel
     |           ^
$item
Next: take it out, since a text has no comments."
mistake 'ORD\001' 0 "Line 1, column 1: 'ORD\\x01' cannot stand here.
   1 | ORD\\x01
     | ^
Here can stand: routine.
Next: this looks like a listing; all commands but type take it as it is."

# lines that end with CR LF; a CR alone is a blank
mistake 'routine {\r\n  r 1\r\n  x\r\n}\r\n' 20 "Line 3, column 3: 'x' cannot stand here.
   3 |   x
     |   ^
$more
$unknown_word"
mistake 'routine {\rr 1\rx }' 14 "Line 1, column 15: 'x' cannot stand here.
   1 | routine { r 1 x }
     |               ^
$more
$unknown_word"

# a long line is cut around the place
row='r 1 w 2 r 3 w 4 r 5 w 6 r 7 w 8 r 9 w 10 '
mistake "routine {\n$row$row x $row$row}" 93 "Line 2, column 84: 'x' cannot stand here.
   2 | ...1 w 2 r 3 w 4 r 5 w 6 r 7 w 8 r 9 w 10  x r 1 w 2 r 3 w 4 r 5 w 6 r 7 w 8 r ...
     |                                            ^
$more
$unknown_word"
mistake "routine { $(printf %0100d 0)" 10 "Line 1, column 11: '000000000000000000000000000000000000...' cannot stand here.
   1 | routine { 000000000000000000000000000000000000...
     |           ^
$item
Next: write r, w or u before each number."

# a text that breaks off: its last line that has a word, and the caret behind that
mistake 'routine { loop {\n  r 1' 22 "Line 2, column 6: the text breaks off here, with 2 open blocks, begun in lines 1 and 1.
   2 |   r 1
     |      ^
$more
Next: write what is missing; each open block ends with its own }."
mistake 'routine {\n  r 1  \r\n\n' 20 "Line 4, column 1: the text breaks off here, with 1 open block, begun in line 1.
   2 |   r 1
     |      ^
$more
Next: write what is missing; each open block ends with its own }."
mistake 'routine { loop {\nloop {\nw ' 26 "Line 3, column 3: the text breaks off here, with 3 open blocks, begun in lines 1, 1 and 2.
   3 | w
     |  ^
$location
Next: write what is missing; each open block ends with its own }."
mistake 'routine { either { f }\n' 23 "Line 2, column 1: the text breaks off here, with 1 open block, begun in line 1.
   1 | routine { either { f }
     |                       ^
Here can stand: { for the second block of either.
Next: write what is missing; each open block ends with its own }."
mistake 'routine { f }\nroutine' 21 "Line 2, column 8: the text breaks off here.
   2 | routine
     |        ^
Here can stand: { for the block of routine.
Next: write what is missing."

# ---- what is said to be able to stand can, and nothing else can: after each word of two texts, by the proved program

stands() { # WORD: after $start
    answer=$(printf '%s%s' "$start" "$1" | run typed | tr -d '\000')
    [ "$answer" != "REFUSED 17 ${#start}" ]
}

# The words that are said to be able to stand, in the order of the loop below; 1 for a number.
said_to_stand() {
    sed -n -e "s/^Here can stand: //;T" -e "s/, or the text's end//;s/ for .*//;s/a location number.*/1/;s/ or / /;s/[,.]//g;p" "$room/err"
}

follow() { # START WORDS..
    start=$1
    shift
    for next in "$@" ''; do
        printf '%sx' "$start" >"$typed"
        try 2 "REFUSED 17 ${#start}" "Line 1, column $((${#start} + 1)): 'x' cannot stand here." judge 1 "$typed"
        standing=''
        for word in r w u f loop either '}' routine '{' 1; do ! stands "$word" || standing="$standing $word"; done
        [ " $(said_to_stand)" = "$standing" ] || wrong "says '$(said_to_stand)' can stand, and there can stand$standing" judge 1 "$start"
        start="$start$next "
    done
}
follow '' routine '{' either '{' loop '{' r 1 '}' u 2 '}' '{' w 3 f '}' '}' routine '{' f '}'
follow 'routine { loop { loop { loop { loop { loop { loop { loop { either { ' r 1 '}' '{' f '}' '}'

# ---- too few or too many, in the typist's words

apart='Keep all routines that may share a cell in one text; only groups that share no cell and have no unknown location may be parted.'
many() { awk -v what="$1" -v count="$2" 'BEGIN { while (count-- > 0) printf "%s ", what }'; }
for nothing in '' ' \r\n \n'; do
    printf "$nothing" >"$typed"
    try 2 'REFUSED 5 0' '' judge 1 "$typed"
    said "Refused by rule 5: F is 0 or over 16.
Next: the text has no words: type a routine, as $root/nyekushiro help type shows. Or was an export cut off?" judge 1 "$nothing"
done
many 'routine { f }' 16 >"$typed"
try 0 ROBUST '' judge 1 "$typed"
many 'routine { f }' 17 >"$typed"
try 2 'REFUSED 5 0' '' judge 1 "$typed"
said "Refused by rule 5: F is 0 or over 16.
Next: the text has 17 routines, and 16 is the most.
$apart" judge 1 17 routines
echo x >>"$typed"
try 2 'REFUSED 17 238' 'Line 1, column 239' judge 1 "$typed"
{ echo 'routine {' && many 'either { f } { f }' 32 && echo '}'; } >"$typed"
try 0 ROBUST '' judge 1 "$typed"
{ echo 'routine {' && many 'either { f } { f }' 32 && echo 'f }'; } >"$typed"
try 2 'REFUSED 6 0' '' judge 1 "$typed"
said "Refused by rule 6: N over 128.
Next: the text gives 129 nodes, and 128 is the most: r, w, u, f and loop are one each, an either two.
$apart" judge 1 129 nodes
echo '}' >>"$typed"
try 2 'REFUSED 17 622' 'take it out, since no block is open' judge 1 "$typed"

# 1 MiB is read, and no more
{ cat "$text" && head -c $((1048576 - $(wc -c <"$text"))) /dev/zero | tr '\0' ' '; } >"$typed"
try 1 'OPEN 0 1 2 0-1 2-3' 'In the text:' judge 3 "$typed"
echo >>"$typed"
try 2 '' '' judge 3 "$typed"
said 'nyekushiro: the text is longer than 1 MiB (1048576 bytes), and no more is read.
Next: is this a typed text? One of 128 nodes needs only a few thousand bytes.' judge 3 1048577 bytes
try 2 '' 'the text is longer than 1 MiB' type "$typed"
[ ! -e "$typed.ord" ] || wrong 'wrote a listing of a text that is too long' type

# ---- help

try 0 any '' help type
for part in 'routine { loop { r 2 } r 1 }' 'a column is a byte' 'at most 1 MiB' 'docs/TYPING.md' '32768 to 65535 a block of cells' 'a listing that'; do
    grep -Fq -- "$part" "$room/out" || wrong "does not say '$part'" help type
done
sed -n '/^  routine/s/^  //p' "$room/out" >"$typed"
cp "$room/out" "$room/page"
try 0 "$(cat "$room/page")" '' type --help
try 1 any '' judge 3 "$typed"
