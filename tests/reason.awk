# The clearest refusal in a log of the prover, in words: an example that no longer holds, before what a function ensures and what is left to show of it, before
# a difference that was worked out, before whatever else was said first.

# cast TEXT: a number of a type that is cast to that type is the number
function cast(text, from, at, depth, c) {
    while (match(text, /to_z w[0-9]+ \(of_z w[0-9]+ /)) {
        from = RSTART + RLENGTH
        depth = 1
        for (at = from; depth > 0 && at <= length(text); at++) {
            c = substr(text, at, 1)
            if (c == "(") depth++
            if (c == ")") depth--
        }
        text = substr(text, 1, RSTART - 1) substr(text, from, at - from - 1) substr(text, at)
    }
    return text
}

# plain TEXT: names without the modules that they stand in, a parameter by its name alone, and numbers as they are written: `negsuc 0` is -1
function plain(text) {
    while (match(text, /(lib|mir|borrow|mathlib|native|denote|Prim|Rattle|lts|reads)\.([^ `(),]*\.)?/))
        text = substr(text, 1, RSTART - 1) substr(text, RSTART + RLENGTH)
    text = cast(text)
    gsub(/ ?\.before/, "", text)
    gsub(/c\.args\./, "", text)
    while (match(text, /(^|[ (])c\.[a-z]/)) text = substr(text, 1, RSTART + RLENGTH - 4) substr(text, RSTART + RLENGTH - 1)
    while (match(text, /\([a-z_0-9.]+\)/)) text = substr(text, 1, RSTART - 1) substr(text, RSTART + 1, RLENGTH - 2) substr(text, RSTART + RLENGTH)
    if (text == "pos") return "0 or more"
    if (text == "negsuc") return "below 0"
    while (match(text, /\(?(pos|negsuc) [0-9]+\)?/)) {
        whole = substr(text, RSTART, RLENGTH)
        before = substr(text, 1, RSTART - 1)
        behind = substr(text, RSTART + RLENGTH)
        if (whole ~ /^\(/ && whole !~ /\)$/) { before = before "("; sub(/^\(/, "", whole) }
        if (whole !~ /^\(/ && whole ~ /\)$/) { behind = ")" behind; sub(/\)$/, "", whole) }
        gsub(/[()]/, "", whole)
        number = substr(whole, index(whole, " ") + 1)
        if (whole ~ /^n/) number = "-" sprintf("%.0f", number + 1)
        text = before number behind
    }
    return text
}

# short TEXT: at most so much of a term that it can be read
function short(text) {
    text = plain(text)
    if (text ~ /^\([^()]*\)$/) text = substr(text, 2, length(text) - 2)
    if (length(text) <= 240) return text
    text = substr(text, 1, 240)
    sub(/[\300-\377][\200-\277]*$/, "", text) # a letter that was cut in two
    return text ".."
}

# ends TERM: of `Path TYPE LEFT RIGHT`, or an equation that is written in front of its sides, puts these into the names left and right; 0 where it has another form
function ends(term, i, c, depth, part, parts, n) {
    n = 0
    part = ""
    for (i = 1; i <= length(term); i++) {
        c = substr(term, i, 1)
        if (c == "(" || c == "{") depth++
        if (c == ")" || c == "}") depth--
        if (c == " " && depth == 0 && part != "record") {
            parts[++n] = part
            part = ""
        } else {
            part = part c
        }
    }
    parts[++n] = part
    if (n != 4 || parts[1] != "Path" && parts[2] !~ /^\{A = /) return 0
    left = parts[3]
    right = parts[4]
    return 1
}

# quoted TEXT: what stands between the next backquotes; what is behind them is left in rest
function quoted(text, at) {
    at = index(text, "`")
    text = substr(text, at + 1)
    at = index(text, "`")
    rest = substr(text, at + 1)
    return substr(text, 1, at - 1)
}

# difference TEXT: the two sides of what was worked out, in a line; "" where nothing was
function difference(text, at, one, other, from, to) {
    at = match(text, /computed as far as they go, the two types (differ only where|first differ where|are)/)
    if (at && text ~ /\(found\)/) {
        one = quoted(substr(text, at))
        other = quoted(rest)
        if (ends(one)) {
            from = left
            to = right
            if (ends(other) && (left == from || right == to)) {
                one = left == from ? to : from
                other = left == from ? right : left
            }
        }
        return short(one) " expected, " short(other) " found"
    }
    at = match(text, /(a path whose two ends are equal, and|Rewritten, the goal is) `Path/)
    if (!at) return ""
    one = quoted(substr(text, at))
    return "left to show: " (ends(one) ? short(left) " is " short(right) : short(one))
}

# fails TEXT: the numbers at which what is to be shown fails; "" where there are none
function fails(text) {
    if (!match(text, /(the goal|it) fails, at .*/)) return ""
    text = substr(text, RSTART, RLENGTH)
    sub(/\. It (read|passed|split) .*/, "", text)
    sub(/^(the goal|it) fails, at /, "", text)
    return "it fails at " short(text)
}

# named TEXT: whether an error says only that a name is gone, or what rests on one that is
function named(text) {
    return text ~ /declarations? that depends? on |was not admitted|is not in scope|has no field|has no `|is no name/
}

# told HEAD TEXT: how clear an error is, and in words what it says
function told(head, text, what, at, source) {
    at = match(head, /(src|specs|proofs)\/[^ ]*: error: /)
    place = substr(head, at)
    sub(/:[0-9]+: error: .*/, "", place)
    split(place, where, ":")
    name = quoted(substr(head, index(head, ": error: ")))
    says = where[1] ", line " where[2] ", " name ": "
    if (named(text)) return 0
    what = difference(text)
    source = head
    sub(/:[0-9]+:[0-9]+: error: .*/, "", source)
    if (what != "" && (statement = example(folder "/" source, where[2] + 0)) != "") {
        says = "An example " (statement ~ /"/ ? "of the paper " : "") "no longer holds, in " where[1] ":\n" statement "    " what
        return 5
    }
    if (what == "" && (what = fails(text)) != "") {
        says = says what
        return 3
    }
    if (what != "") {
        says = says what
        return 3
    }
    sub(/^[^`]*`[^`]*`: /, "", text)
    if (match(text, /as printed, the two (types|sides) (differ only|first differ) where one has /)) {
        what = quoted(substr(text, RSTART))
        says = says short(what) " expected, " short(quoted(rest ~ /and the other has/ ? substr(rest, index(rest, "the other has")) : rest)) " found"
        return 2
    }
    says = says short(text)
    return 1
}

# example FILE LINE: the statement that holds the line, with the comment above it, where it is an example: in a file of examples, or below words of the paper
function example(file, line, n, at, text, from) {
    n = 0
    while ((getline text < file) > 0) lines[++n] = text
    close(file)
    for (at = line; at > 1 && lines[at] !~ "^(abbrev |unfoldable )*(pub )?" name " :"; at--) { }
    for (from = at; from > 1 && lines[from] !~ /^-- /; from--) { }
    while (lines[from - 1] ~ /^-- /) from--
    if (file !~ /\/Examples[^\/]*$/ && lines[from] !~ /^-- "/) return ""
    text = ""
    for (; lines[from] ~ /^-- /; from++) text = text "    " lines[from] "\n"
    for (; at <= line && lines[at] !~ "^(unfolding |" name " )"; at++) text = text "    " plain(lines[at]) "\n"
    return text
}

function finish_error(clear) {
    if (head == "") return
    clear = told(head, block)
    if (clear > best) {
        best = clear
        reason = says
    }
    head = ""
}

# values TEXT: the parameters' values, of those at which a goal is false
function values(text, found, one, other, n) {
    text = substr(text, index(text, "the known facts allow "))
    while (n < 4 && text ~ /`.*` = `/) {
        one = quoted(text)
        other = quoted(rest)
        text = rest
        if (one !~ /^c\.args\.[a-z_0-9.]+$/ || length(other) > 160) continue
        found = found (n++ ? ", " : "") plain(one) " = " short(other)
    }
    return found
}

/: error: / {
    finish_error()
    head = $0
    block = $0
    next
}
/^  / && head != "" {
    sub(/^ */, " ")
    block = block $0
    next
}
{ finish_error() }

# What the prover looked for itself and didn't find: a line for each goal, then its statement, then maybe numbers at which it is false, in the same order.
/^note: (\.\/)?src\/.*: it is not proved that / {
    text = $0
    sub(/^note: (\.\/)?/, "", text)
    label = text
    sub(/^[^`]*/, "", label)
    label = quoted(label)
    sub(/:[0-9]+: /, ": ", text)
    sub(/:/, ", line ", text)
    sub(/ \(`.*/, "", text)
    goals++
    goal[goals] = text
    of[goals] = label
    next
}
/^note: `.*` of proofs\/.* must prove: / {
    label = quoted($0)
    text = $0
    sub(/^.* must prove: /, "", text)
    for (i = 1; i <= goals; i++) if (of[i] == label && !(i in left_over)) break
    if (i <= goals) {
        left_over[i] = ends(text) ? short(left) " ≡ " short(right) : short(text)
        file = $0
        sub(/^note: `[^`]*` of /, "", file)
        sub(/ must prove: .*/, "", file)
        which[file " " label] = i
    }
    next
}
/^note: `.*` of proofs\/.* may be false: the known facts allow / {
    label = quoted($0)
    file = $0
    sub(/^note: `[^`]*` of /, "", file)
    sub(/ may be false: .*/, "", file)
    if ((file " " label) in which) at_values[which[file " " label]] = values($0)
    next
}

END {
    finish_error()
    for (i = 1; i <= goals; i++) {
        clear = goal[i] ~ /ensures/ && i in left_over ? 4 : i in left_over ? 2.5 : 1.5
        if (clear <= best) continue
        best = clear
        reason = goal[i]
        if (i in left_over) reason = reason ":\n    " left_over[i]
        if (at_values[i] != "") reason = reason "\n    which is false at " at_values[i]
    }
    if (reason != "") print reason
}
