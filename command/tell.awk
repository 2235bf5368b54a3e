# The lines of the program `telling` in words, for the person who asked. What is read is the plan's text and behind it the lines. The
# environment has `names`, those of all columns or none, and `lost`, the runs that were lost: lists with commas.
/^[0-9]/ {
    if (width) { read_run(); next }
    width = split($0, level, ",")
}
/^tell / { a = $2; for (k = 3; k <= NF; k++) other[++others] = $k }
/^answer / { answer = $2 }
/^words / { words = $3 == 1 ? $2 : $2 "/" $3; carry = $2 < $3 }
/^absent / { absent[++absents] = $2 }
/^group / {
    groups++
    group_of[$2] = groups
    for (k = 2; k <= NF; k++) { member[groups, k - 1] = $k; occurring++ }
    size[groups] = NF - 1
}
/^pair / { pairs++; first[pairs] = $2; second[pairs] = $3; level_of_first[pairs] = $4; level_of_second[pairs] = $5 }
/^cell / {
    cells++
    in_group[cells] = group_of[$2]
    for (k = 3; k <= NF; k++) cell[cells, k - 2] = $k
}

END {
    read_names()
    read_lost()
    ask()
    print ""
    if (answer == "yes") say_yes()
    else say_no()
    say_absent()
    print ""
    say_words()
    if (answer == "yes" && occurring > 1) say_limits()
}

function read_run(   k, row) {
    split($0, row, ",")
    for (k = 1; k <= width; k++) entry[runs + 0, k - 1] = row[k]
    runs++
}

function read_names(   k, list) {
    named = split(ENVIRON["names"], list, ",")
    for (k = 1; k <= named; k++) { gsub(/^ +| +$/, "", list[k]); name[k - 1] = list[k] }
}

function read_lost(   k, n, list, struck) {
    n = split(ENVIRON["lost"], list, ",")
    for (k = 1; k <= n; k++) struck[list[k] + 0]
    for (k = 0; k < runs; k++) if (k in struck) lost[++losses] = k
}

# ---- the page

function ask(   standing) {
    standing = runs - losses
    say("Can " (losses ? "the runs left" : "these runs") " tell an effect of " column(a) against() "?")
    if (!losses) say(runs == 1 ? "The one run stands." : "All " runs " runs stand.")
    else say(standing " of the " runs " runs " verb(standing, "stand") ". " things("Run", lost, losses) (losses == 1 ? " was" : " were") " lost.")
}

function against() {
    if (!others) return ", with no other column acting"
    return " from " (others == 1 ? "an effect of " : "") acting()
}

function say_yes(   k) {
    if (occurring == 1) { say("Yes, but there is nothing to tell: only level " member[1, 1] " of " column(a) " occurs."); return }
    say("Yes. " alike() " compare all levels of " column(a) (absents ? " that occur" : "") ":")
    for (k = 1; k <= pairs; k++) say_pair(k)
}

function say_no(   k) {
    if (groups == occurring) say("No. " alike() " always have the same " (named ? "" : "level of ") column(a) ":")
    else say("No. The levels of " column(a) " fall into " groups " groups, and runs with the same " same() " stay within one:")
    for (k = 1; k <= groups; k++)
        evidence("In every " run_left() ", " levels_of_group(k) " " verb(size[k], "occur") " exactly where " where(k) ".")
    if (pairs) say("Within a group levels are compared:")
    for (k = 1; k <= pairs; k++) say_pair(k)
    say("A difference between the " (groups == occurring ? "levels" : "groups") " may come from " column(a) " or from " acting() \
        ": the figures would be the same in every " run_left() ".")
}

function say_absent() {
    if (!absents) return
    print ""
    say(things("Level", absent, absents) " of " column(a) " " verb(absents, "occur") " in no " run_left() \
        ": nothing is said of " (absents == 1 ? "it." : "them."))
}

function say_words() {
    say("The published words of " column(a) (others ? " with " columns() : "") " come to " words ". " \
        (carry ? "Below 1 they" : "Only below 1 do they") " say yes by themselves.")
}

function say_limits(   c, k, n, rest, asked) {
    for (k = 1; k <= others; k++) asked[other[k]]
    for (c = 0; c < width; c++) if (c != a && !(c in asked)) rest[++n] = c
    print ""
    say("Yes says nothing of precision: it may rest on two runs." (n ? " Other columns may still be mixed in: " columns_in(rest, n) "." : ""))
}

# ---- evidence

function run_left() { return losses ? "run left" : "run" }
function acting() { return columns() (others > 1 ? " acting together" : "") }
function alike() { return others ? "Runs with the same " same() : "These runs" }
function same() { return (named ? "" : "entries in ") columns() }

function say_pair(p,   k, shared, two) {
    for (k = 1; k <= others; k++) shared[k] = entry_of(other[k], entry[first[p], other[k]])
    two[1] = level_of_first[p]
    two[2] = level_of_second[p]
    evidence("Runs " first[p] " and " second[p] (others ? " both have " joined(shared, others, "and") ", and " : " have ") levels(two, 2) ".")
}

# In which cells the levels of a group occur: by one column, by two that are equal or differ, or by the list of combinations.
function where(g,   k, l, words) {
    for (k = 1; k <= others; k++) if (words = by_column(g, k)) return words
    for (k = 1; k < others; k++)
        for (l = k + 1; l <= others; l++) if (words = by_two(g, k, l)) return words
    return combinations(g)
}

function by_column(g, k,   c, e, n, inside, list) {
    for (c = 1; c <= cells; c++) if (in_group[c] == g) inside[cell[c, k]]
    for (c = 1; c <= cells; c++) if (in_group[c] != g && cell[c, k] in inside) return ""
    for (e = 0; e < level[other[k] + 1]; e++) if (e in inside) list[++n] = e
    return column(other[k]) " is " joined(list, n, "or")
}

function by_two(g, k, l,   c, n, differ, list) {
    if (level[other[k] + 1] != 2 || level[other[l] + 1] != 2) return ""
    for (c = 1; c <= cells; c++) if (in_group[c] == g) { n++; differ = cell[c, k] != cell[c, l] }
    if (n == 1) return ""
    for (c = 1; c <= cells; c++) if ((cell[c, k] != cell[c, l]) != (in_group[c] == g ? differ : !differ)) return ""
    list[1] = other[k]
    list[2] = other[l]
    return columns_in(list, 2) (differ ? " differ" : " are equal")
}

# Eight of them at most.
function combinations(g,   c, k, n, list, words) {
    for (c = 1; c <= cells; c++) if (in_group[c] == g && ++n <= 8) {
        words = cell[c, 1]
        for (k = 2; k <= others; k++) words = words "," cell[c, k]
        list[n] = "(" words ")"
    }
    if (n > 8) list[9] = "one of " n - 8 " more combinations"
    return columns() " are " joined(list, n > 8 ? 9 : n, "or")
}

# ---- names and numbers

function column(c) { return named ? name[c] : "column " c }
function columns() { return columns_in(other, others) }

function columns_in(list, n,   k, called) {
    if (!named) return things("column", list, n)
    for (k = 1; k <= n; k++) called[k] = name[list[k]]
    return joined(called, n, "and")
}

# `membrane 1` reads well, `A 1` and `x2 1` do not.
function reads_well(c) { return named && name[c] ~ /[a-z][a-z]$/ }

function entry_of(c, e) { return reads_well(c) ? name[c] " " e : e " in " column(c) }

function levels(list, n) { return reads_well(a) ? things(name[a], list, n) : things("level", list, n) " of " column(a) }

function levels_of_group(g,   k, list) {
    for (k = 1; k <= size[g]; k++) list[k] = member[g, k]
    return levels(list, size[g])
}

function things(one, list, n) { return (n == 1 ? one : plural(one)) " " joined(list, n, "and") }
function verb(n, words) { return n == 1 ? words "s" : words }

function plural(one) {
    if (one ~ /(s|x|z|ch|sh)$/) return one "es"
    if (one ~ /[^aeiou]y$/) return substr(one, 1, length(one) - 1) "ies"
    return one "s"
}

function joined(list, n, word,   k, words) {
    words = list[1]
    for (k = 2; k <= n; k++) words = words (k < n ? ", " : " " word " ") list[k]
    return words
}

# ---- lines of at most 78 characters

function say(words) { wrap(words, "", "") }
function evidence(words) { wrap(words, "  ", "    ") }

function wrap(words, begin, further,   k, n, word, line) {
    n = split(words, word, " ")
    line = begin word[1]
    for (k = 2; k <= n; k++)
        if (length(line) + 1 + length(word[k]) <= 78) line = line " " word[k]
        else { print line; line = further word[k] }
    print line
}
