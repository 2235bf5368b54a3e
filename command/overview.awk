# The lines of the program `overview` in words: sizes, levels that never occur, repeated runs. Lines and numbers of the text are
# counted as an editor counts, runs, columns and levels from 0.
function count(n, one) { return n == 1 ? "1 " one : n " " one "s" }
/^plan / { print "The text is a plan of " count($2, "run") " and " count($3, "column") "." }
/^absent / { print "Level " $3 " of column " $2 " (line 1, number " $2 + 1 ") never occurs."; absent++ }
/^repeated / { print "Run " $2 " (line " $2 + 2 ") repeats run " $3 " (line " $3 + 2 ")."; repeated++ }
END {
    if (!absent) print "Every level occurs."
    if (!repeated) print "No run is repeated."
}
