# Prints the crates of the longest chain of crates that stand on one another, counted by lines of source. Its files are
# the output of `wc -l crates/*/src/*`, and crates.txt.
FNR == NR {
    split($2, part, "/")
    lines[part[2]] += $1
    next
}

{ sub(/#.*/, "") }

split($0, side, ":") == 2 {
    split(side[1], word, " ")
    uses[word[1]] = side[2]
}

# longest(NAME): the lines of the longest chain from a crate down; below[NAME] is the next crate of it.
function longest(name,    used, count, i) {
    if (!(name in uses)) return 0
    if (name in known) return known[name] + lines[name]
    count = split(uses[name], used, " ")
    known[name] = 0
    for (i = 1; i <= count; i++) {
        if (longest(used[i]) > known[name]) {
            known[name] = longest(used[i])
            below[name] = used[i]
        }
    }
    return known[name] + lines[name]
}

END {
    for (name in uses) if (name ~ /^regrun_/ && longest(name) > longest(top)) top = name
    for (; top; top = below[top]) print top
}
