# Puts into words what a program said on standard error. Reads the header, for its table of refusals, and then what was said; `ended`
# is the program's own status, `verb` what was asked. Exits with the status of crumb: 0 answered, 1 refused, 3 not read or not written.
#
# What a program says: `refused NUMBER PLACE PLACE`; for refusal 14 the bytes of the first line and of the line named, as decimal
# numbers behind `levels` and `line`; `lost RUN LINE`; `runs RUN..`; `not read: WHY` and `not written: WHY`.
function tell(words) { print "crumb: " words }

# The parts of a row of the table, X(NUMBER, NAME, "wrong", "advice").
NR == FNR {
    if ($1 ~ /^X\([0-9]+,$/) {
        split($0, quoted, "\"")
        number = substr($1, 3) + 0
        wrong[number] = quoted[2]
        advice[number] = quoted[4]
    }
    next
}
/^not (read|written): / { failed = 1; tell($0); next }
/^refused / { refused = $2; first = $3; second = $4; next }
/^levels/ { width = commas() + 1; next }
/^line/ { size = NF - 1; for (k = 1; k <= size; k++) byte[k] = $(k + 1); next }
/^lost / { tell("left out run " $2 ", line " $2 + 2 " of the text: " $3); next }
/./ { print }

END {
    if (refused) {
        tell("refused " refused ": " place() (refused == 14 ? fault() : wrong[refused]))
        tell(advice[refused])
        if (refused == 8 && verb == "tell") tell("Columns are numbers, or names behind --names; those of J rise, and A is not one of them.")
        exit 1
    }
    if (ended > 128 && !failed) { failed = 1; tell("not written: the program was ended by signal " ended - 128) }
    if (ended != 0 && !failed) { failed = 1; tell("the program could not be run") }
    exit failed ? 3 : 0
}

function commas(   k, n) { for (k = 2; k <= NF; k++) n += $k == 44; return n + 0 }

# The place as an editor counts: lines and numbers from 1, the levels in line 1.
function place() {
    if (refused == 2) return "line 1, number " first + 1 ": "
    if (refused == 3) return "line 1: "
    if (refused == 5) return "line " first + 2 ", number " second + 1 ": "
    if (refused == 14) return "line " first " "
    return ""
}

# What makes the line malformed: the first byte that does not belong there, or its end, or how many numbers it has.
function fault(   k, b, number, digits, zero) {
    if (size == 0) return "is missing: the text is empty"
    if (first == 1 && byte[1] == 239 && byte[2] == 187) return "begins with a byte order mark, bytes 239 187 191"
    if (first == 1 && byte[1] + byte[2] == 509) return "begins with bytes " byte[1] " " byte[2] ": this is UTF-16, not plain text"
    number = 1
    for (k = 1; k <= size && byte[k] != 10; k++) {
        b = byte[k]
        if (b == 13 && (k == size || byte[k + 1] == 10)) return "ends in byte 13, a Windows line end"
        if (b == 44) {
            if (digits == 0) return "has no number in place " number
            number++
            digits = 0
        } else if (b >= 48 && b <= 57) {
            if (++digits == 1) zero = b == 48
            if (digits == 2 && zero) return "has a leading zero in number " number
            if (digits == 3) return "has a number of three digits or more, number " number
        } else return "has " named(b) " at number " number
    }
    if (size == 1 && byte[1] == 10) return "is empty"
    if (digits == 0) return "ends in a comma"
    if (byte[size] != 10) return size < 600 ? "has no line end: the text stops behind its last number" : "is longer than that of any plan"
    return "has " numbers(number) ", and line 1 has " width
}

function numbers(n) { return n == 1 ? "1 number" : n " numbers" }

function named(b) {
    if (b == 32) return "a space"
    if (b == 9) return "a tab"
    if (b == 59) return "a semicolon"
    if ((b >= 65 && b <= 90) || (b >= 97 && b <= 122)) return "the letter " sprintf("%c", b + 0)
    if (b > 32 && b < 127) return "the character " sprintf("%c", b + 0)
    return "byte " b
}
