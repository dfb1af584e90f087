# The bench's tables. First file: ours or tuned|NAME|INSTRUCTIONS; second: NAME|PARTS|NS|NS, and where the program counted itself |INSTR.|INSTR.
FILENAME == ARGV[1] { count[$1, $2] = $3; next }
/all alike/ { print; next }
{
    names[++n] = $1
    ns["ours", $1] = $3
    ns["tuned", $1] = $4
    for (k = 1; k <= 2; k++) {
        who = k == 1 ? "ours" : "tuned"
        instructions[who, $1] = NF > 4 ? $(4 + k) : count[who, $1] / $2
    }
}
# Ours has no call without the test of convexity. What the test costs is told by the same outlines against a window that is refused: the test comes
# before that refusal, but not where a corner is off the table, too.
function without_test(table, corners, row) {
    return table["ours", "outline " corners " " row] - (table["ours", "refused tested " corners] - table["ours", "refused " corners])
}
function line(name) {
    label = name
    sub(/, our Liang-Barsky$/, "", label)
    printf "%-27s %9.1f %9.1f %6.2f", label, ns["ours", name], ns["tuned", name], ns["ours", name] / ns["tuned", name]
    if (instructions["tuned", name]) {
        ratio = instructions["ours", name] / instructions["tuned", name]
        printf " %10.1f %10.1f %6.2f", instructions["ours", name], instructions["tuned", name], ratio
    } else ratio = ns["ours", name] / ns["tuned", name]
    printf "\n"
    return ratio
}
function head(title, other) {
    printf "\n%-27s %9s %9s %6s %10s %10s %6s\n", title, "ns", other ": ns", "ratio", "instr.", other ": instr.", "ratio"
}
END {
    for (i = 1; i <= n; i++)
        if (names[i] ~ /untested|plain/) {
            split(names[i], word, " ")
            row = word[4] ? word[4] : "mixed"
            ns["ours", names[i]] = without_test(ns, word[2], row)
            instructions["ours", names[i]] = without_test(instructions, word[2], row)
        }
    head("growth, per stroke", "C")
    for (i = 1; i <= n; i++) if (names[i] ~ /^growth batch/) line(names[i])
    head("growth, per outline", "C")
    for (i = 1; i <= n; i++) if (names[i] ~ /^growth outline/) line(names[i])
    head("per call or stroke", "C")
    for (i = 1; i <= n; i++)
        if (names[i] !~ /^(growth|refused)|, our Liang-Barsky$/) {
            version = names[i] ~ /, faster C$/ ? "faster" : "tuned"
            rows[version]++
            if (line(names[i]) <= 1.0) good[version]++
        }
    printf "at or below 1.0 times the tuned C version: %d of %d rows\n", good["tuned"], rows["tuned"]
    printf "at or below 1.0 times the faster C version: %d of %d rows\n", good["faster"], rows["faster"]
    head("against our Liang-Barsky", "LB")
    for (i = 1; i <= n; i++) if (names[i] ~ /, our Liang-Barsky$/) line(names[i])
}
