# The lines of crates.txt of a program and of the crates that it stands on: awk -v program=NAME -f .ci/lib/own_crates.awk crates.txt
function visit(name,    words, n, i) {
    if (name in seen || !(name in uses)) return
    seen[name]
    print name ":" uses[name]
    n = split(uses[name], words, " ")
    for (i = 1; i <= n; i++) visit(words[i])
}
{ sub(/#.*/, "") }
split($0, line, ":") { split(line[1], head, " "); uses[head[1]] = line[2] }
END { visit(program) }
