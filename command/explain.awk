# The refusals of the header's table in words: all, or the one whose number is `only`.
$1 ~ /^X\([0-9]+,$/ {
    split($0, quoted, "\"")
    number = substr($1, 3) + 0
    if (only == "" || only == number "") {
        printf "%2d  %s\n    %s\n", number, quoted[2], quoted[4]
        found = 1
    }
}
END { exit !found }
