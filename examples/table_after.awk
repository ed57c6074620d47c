# The table as the moves leave it: reads what program `fill` prints, and prints a row for each group with the moves put in.
function digit(c) { return index("0123456789abcdef", c) - 1 }
/^11/ { group = substr($0, 3, 8); order[++groups] = group; places[group] = substr($0, 11) }
/^13/ {
    group = substr($0, 3, 8)
    at = 4 * (16 * digit(substr($0, 11, 1)) + digit(substr($0, 12, 1)) - 1)
    list = places[group]
    places[group] = substr(list, 1, at) substr($0, 17, 4) substr(list, at + 5)
}
END { for (i = 1; i <= groups; i++) print "11" order[i] places[order[i]] }
