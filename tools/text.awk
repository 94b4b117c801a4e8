# Reads a typed text, as od writes its bytes in octal, and says where things stand in it. Which text is refused, by which number and
# at which place, is proved; what is said of it here is not.
#   mode=show   the lines before the first empty one, a line a node, each with where the node is typed; the text comes after them
#   mode=named  where the nodes `wanted` are typed
#   mode=count  how many routines the text has, and how many nodes
#   mode=wrong  why the word at the byte `place` cannot stand there, and what could

BEGIN {
    for (code = 0; code < 256; code++) show[sprintf("%03o", code)] = sprintf(code < 32 || code > 126 ? "\\x%02X" : "%c", code)
    show["011"] = "\\t"
    show["015"] = " "
    count = split("read r write w mfence f if either while loop for loop do loop", pair, " ")
    for (i = 1; i < count; i += 2) meant[pair[i]] = pair[i + 1]
    if (mode != "wrong") place = -1
    line = 1
    expects = "routine"
}

mode == "show" && !listed {
    if (NF) shown[lines++] = $0
    else listed = 1
    next
}

{ for (i = 1; i <= NF; i++) take($i) }

END {
    end_word()
    if (mode == "show") for (n = 0; n < lines; n++) print shown[n] (n in where ? " (" where[n] ")" : "")
    if (mode == "named") name(split(wanted, asked, " "))
    if (mode == "count") print parts + 0, nodes + 0
    if (mode == "wrong") explain()
}

function name(count) {
    for (i = 1; i <= count; i++)
        if (!(asked[i] in named)) { named[asked[i]]; print "    node " asked[i] ": " where[asked[i]] }
}

# ---- bytes, words and lines

function take(byte) {
    column++
    if (at++ == place) { marked = showing = 1; at_line = line; at_column = column }
    if (byte == "040" || byte == "015" || byte == "012") end_word()
    else grow(byte)
    if (byte == "012") end_line()
    else if (mode == "wrong") see(show[byte])
}

# A word that can stand has at most 7 bytes, so a long one need not be kept whole.
function grow(byte) {
    if (word == "") { word_line = line; word_column = column; tab = odd = 0 }
    if (length(word) < 40) word = word show[byte]
    if (byte == "011") tab = 1
    else if (length(show[byte]) > 1) odd = 1
}

function end_word() {
    if (word == "") return
    if (!marked) { seen = line; lost = lost || !step(word) }
    else if (bad == "") { bad = word; bad_tab = tab; bad_odd = odd }
    word = ""
}

function end_line() {
    if (!marked) {
        if (seen == line) { last = before; last_cut = cut }
        before = ""
        cut = 0
    }
    showing = column = 0
    line++
}

# Keeps what is shown of the line around the place.
function see(piece) {
    if (!marked) {
        before = before piece
        if (length(before) > 200) shorten()
    } else if (showing) {
        showing = length(after piece) <= 36
        after = after (showing ? piece : "...")
    }
}

function shorten() { before = substr(before, length(before) - 39); cut = 1 }

# ---- which words can stand one after another

function step(word) {
    if (expects == "routine") return word == "routine" && ++parts && opener(word, word_line)
    if (expects == "{") return word == "{" && enter()
    if (expects == "number") return word ~ /^[0-9]+$/ && length(word) <= 5 && word + 0 <= 65535 && located(word)
    if (word == "}") return items[depth] && leave()
    if (word == "f") return node(word)
    if (word ~ /^[rwu]$/) return node(word) && (expects = "number")
    if (word == "loop" || word == "either") return depth <= 8 && node(word) && opener(word, word_line)
    return 0
}

function opener(what, from) { opens = what; opens_line = from; return expects = "{" }

function enter() { kind[++depth] = opens; begun[depth] = opens_line; items[depth] = 0; return expects = "item" }

function leave(    left) {
    left = kind[depth--]
    expects = depth ? "item" : "routine"
    if (left == "either") return opener("second", begun[depth + 1])
    return left == "second" ? node("} of either") : 1
}

function node(what) {
    where[nodes++] = "line " word_line ", column " word_column ": " what
    return ++items[depth]
}

function located(number) { where[nodes - 1] = where[nodes - 1] " " number; return expects = "item" }

# ---- why a word cannot stand

function explain() {
    if (!marked) break_off()
    else print "Line " at_line ", column " at_column ": '" (length(bad) < 40 ? bad : substr(bad, 1, 36) "...") "' cannot stand here."
    if (length(before) > 60) shorten()
    if (cut) before = "..." before
    after = before after
    sub(/ +$/, "", after)
    gsub(/./, " ", before)
    margin = sprintf("%4d", marked ? at_line : seen)
    print margin " | " after
    gsub(/./, " ", margin)
    print margin " | " before "^"
    if (lost || marked && step(bad)) return # the two sides differ, and only the place is proved
    print "Here can stand: " could() "."
    print "Next: " (marked ? advice(bad) : "write what is missing" (depth ? "; each open block ends with its own }" : "")) "."
}

# Where all words stand, the line of the last one is shown, and the caret stands behind it.
function break_off() {
    print "Line " line ", column " column + 1 ": the text breaks off here" (depth ? ", with " still_open() : "") "."
    if (seen != line) { before = last; cut = last_cut }
    sub(/ +$/, "", before)
}

function still_open(    k, lines) {
    if (depth == 1) return "1 open block, begun in line " begun[1]
    for (k = 1; k <= depth; k++) lines = lines (k == 1 ? "" : k == depth ? " and " : ", ") begun[k]
    return depth " open blocks, begun in lines " lines
}

function could() {
    if (expects == "routine") return parts ? "routine, or the text's end" : "routine"
    if (expects == "{") return opens == "second" ? "{ for the second block of either" : "{ for the block of " opens
    if (expects == "number") return "a location number, 0 to 65535"
    if (depth <= 8) return "r, w, u, f, loop" (items[depth] ? ", either or }" : " or either")
    return "r, w, u" (items[depth] ? ", f or }" : " or f")
}

function advice(word) {
    if (word ~ /^ORD/) return "this looks like a listing; all commands but type take it as it is"
    if (bad_tab) return "a TAB is no blank here, so put spaces in its place"
    if (word ~ /^\\xEF\\xBB\\xBF/) return "save the text without a byte order mark"
    if (bad_odd) return "use plain letters, digits and braces; other bytes are shown as \\xNN"
    if (word ~ /^(#|\/\/|\/\*|--)/) return "take it out, since a text has no comments"
    if (word ~ /[{}]/ && length(word) > 1) return "put spaces around braces: '" spaced(word) "'"
    if (word ~ /^[RWUrwu][0-9]+$/) return "put a space before the number: '" tolower(substr(word, 1, 1)) " " substr(word, 2) "'"
    if (word ~ /[,;]/) return "put nothing but spaces between words"
    if (expects == "number") return advice_number(word)
    if (word != tolower(word) && step(tolower(word))) return "use small letters: '" tolower(word) "'"
    if (tolower(word) == "else") return "either has two blocks, one after the other: 'either { .. } { .. }'"
    if (expects == "{") return "write the " (opens == "second" ? "second block of either" : "block of " opens) " here: '{ .. }'"
    return expects == "routine" ? advice_part(tolower(word)) : advice_item(tolower(word))
}

function spaced(word) {
    gsub(/[{}]/, " & ", word)
    gsub(/ +/, " ", word)
    gsub(/^ | $/, "", word)
    return word
}

function advice_number(word) {
    if (word !~ /^[0-9]+$/) return "write the number of the location here, in digits; 0 if it may be any cell"
    return length(word) > 5 ? "write at most 5 digits" : "the largest location number is 65535"
}

function advice_part(word) {
    if (word == "}") return "take it out, since no block is open"
    if (word ~ /^([rwuf{]|loop|either)$/) return "items stand in a routine: 'routine { .. }'"
    return correct_it()
}

function advice_item(word) {
    if (word == "}") return "no block is empty, so put an item before it"
    if (word == "loop" || word == "either") return "loop and either stand at most 8 levels deep, and this is the ninth"
    if (word == "routine") return "end the routine before it with }; it has " still_open()
    if (word == "{") return "write loop or either before a block"
    if (word ~ /^[0-9]+$/) return "write r, w or u before each number"
    if (word ~ /^([ls]?fence|d[ms]b)$/) return "write 'f' for it if it orders all loads and stores; leave out one that orders only some"
    if (word ~ /^(ldap?r|acquire)$/) return "write 'r N' for it" version_2()
    if (word ~ /^(stlr|release)$/) return "write 'w N' for it" version_2()
    if (word ~ /^(rmw|cas|(cmp)?xchg|swp|swap|ldrex|lda?xr)$/) return "write 'u N' if it always completes, else 'either { u N } { r N }'"
    if (word in meant) return "write '" meant[word] "' for it"
    return correct_it()
}

function version_2() { return "; acquire and release are in listings of version 2 only" }

function correct_it() { return "correct it; " ENVIRON["me"] " help type shows how a text is typed" }
