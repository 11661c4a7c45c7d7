# Turns what `pacman explain` writes into a graph for Graphviz:
#
#     pacman explain < crates/pac_examples/data/bank.catalogue | awk -f tools/explain_dot.awk | dot -Tsvg
#
# A block is a box with its members. The slices of one procedure have one colour, up to eight procedures; a table is white.
# An edge between blocks is an arrow.
BEGIN {
    split("#a9cce8 #f6b9a8 #b5dca8 #d3bfe6 #fbd493 #d9c1ae #a8dfe3 #f3b5d3", colour, " ")
    print "digraph explained {"
    print "    graph [rankdir=TB, ranksep=0.6, nodesep=0.5, fontname=\"Helvetica\"];"
    print "    node [shape=plain, fontname=\"Helvetica\", fontsize=12];"
    print "    edge [color=\"#444444\"];"
}

# slice PROC S: OP OP ..
$1 == "slice" {
    slice = $3
    sub(":", "", slice)
    for (i = 4; i <= NF; i++) slice_of[$2 "." $i] = slice
    if (!($2 in number)) number[$2] = ++procs
}

# block B: MEMBER, MEMBER, ..
$1 == "block" {
    block = $2
    sub(":", "", block)
    text = $0
    sub(/^block [0-9]+: /, "", text)
    count = split(text, members, ", ")
    rows = row("#dddddd", "<b>block " block "</b>")
    for (i = 1; i <= count; i++) rows = rows member(members[i])
    printf "    b%s [label=<<table border=\"1\" color=\"#444444\" cellborder=\"0\" cellspacing=\"3\" cellpadding=\"4\">%s</table>>];\n", block, rows
}

# edge FROM TO
$1 == "edge" { printf "    b%s -> b%s;\n", $2, $3 }

END { print "}" }

function row(ground, text) {
    return "<tr><td bgcolor=\"" ground "\">" text "</td></tr>"
}

# A table, or PROC.OP with the slice that it is in.
function member(text,    parts) {
    if (text ~ /^table /) return row("#ffffff", text)
    split(text, parts, ".")
    return row(colour[(number[parts[1]] - 1) % 8 + 1], text " (slice " slice_of[text] ")")
}
