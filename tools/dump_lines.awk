# Turns the tables that `pacman recover` prints into request lines, one `adhoc put` for each row:
#
#     (cd STORE && pacman recover) | awk -f tools/dump_lines.awk | (cd NEW_STORE && pacman run --batch 1024)
#
# A row is its key, a blank and its values in parentheses; a text key may have blanks and parentheses of its own between its quotes.
/^table / { table = $2; next }

match($0, /^(-?[0-9]+|"([^"\\]|\\.)*")/) {
    print "adhoc put " table "[" substr($0, 1, RLENGTH) "] =" substr($0, RLENGTH + 1)
    next
}

{
    print "no row of a table: " $0 > "/dev/stderr"
    exit 1
}
