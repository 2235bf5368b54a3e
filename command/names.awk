# Puts column numbers in the place of names. The environment has `names`, a list with commas, `column` and `others`, a list or `-`. What is
# read is the plan's text, for the number of its columns. Prints the column, a space and the list; or what is wrong, with status 2.
# A list with a name in it comes out in the order of the columns.
NR == 1 {
    if ($0 ~ /^[0-9]+(,[0-9]+)*$/) width = split($0, levels, ",")
    exit
}
END {
    count = split(ENVIRON["names"], name, ",")
    for (k = 1; k <= count && !wrong; k++) read_name(trimmed(name[k]), k - 1)
    if (!wrong && width && width != count) fault("--names has " count " names, and the plan has " width " columns")
    column = number(ENVIRON["column"])
    others = ENVIRON["others"] ~ /^-?$/ ? "-" : numbers(ENVIRON["others"])
    print wrong ? wrong : column " " others
    exit wrong ? 2 : 0
}

function fault(words) { if (!wrong) wrong = words }

function trimmed(word) { sub(/^ +/, "", word); sub(/ +$/, "", word); return word }

function read_name(word, place) {
    if (word == "") fault("--names has an empty name")
    if (word ~ /^[0-9]+$/) fault("--names has " word ", which is a number and no name")
    if (word in place_of) fault("--names has " word " twice")
    place_of[word] = place
    all = all (place ? ", " : "") word
}

function number(word) {
    word = trimmed(word)
    if (word ~ /^[0-9]+$/) return word
    if (!(word in place_of)) { fault("no column is called " word "; the names are " all); return 0 }
    named = 1
    return place_of[word]
}

function numbers(list,   k, l, n, item, kept) {
    n = split(list, item, ",")
    named = 0
    for (k = 1; k <= n; k++) item[k] = number(item[k])
    for (k = 2; named && k <= n; k++)
        for (l = k; l > 1 && item[l - 1] + 0 > item[l] + 0; l--) { kept = item[l]; item[l] = item[l - 1]; item[l - 1] = kept }
    list = item[1]
    for (k = 2; k <= n; k++) list = list "," item[k]
    return list
}
