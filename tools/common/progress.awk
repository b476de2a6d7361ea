# Of the prover's log and crates.txt: the crate that the prover has come to, its place among those that make the
# program `crate`, and how far it is there. A crate comes after those it uses, in the order in which its line of
# crates.txt names them.
function visit(crate, uses, n, i) {
    if (!(crate in uses_of) || crate in at) return
    at[crate] = 0
    n = split(uses_of[crate], uses, " ")
    for (i = 1; i <= n; i++) visit(uses[i])
    at[crate] = ++count
}
FILENAME != ARGV[1] {
    split($0, line, ":")
    split(line[1], words, " ")
    if (/^[a-z]/) uses_of[words[1]] = line[2]
    next
}
/^rt: chose .* for [a-z_]*$/ { name = $NF; more = "" }
/^rt: [a-z_]*: begins with what a check kept/ {
    name = substr($2, 1, length($2) - 1)
    more = ", which begins with what a check kept"
}
/^checked [a-z_]*::/ { split($2, part, "::"); if (part[1] != name) more = ""; name = part[1] }
/^so far: [0-9]+ of [0-9]+ / { more = ", " $3 " of " $5 " functions" }
END { visit(crate); if (name in at) print "crate " at[name] " of " count ": " name more }
