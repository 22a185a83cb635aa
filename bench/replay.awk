# The table of bench/replay. Both files have a line for the replay and one for the calls alone, with the numbers of
# the proved side and of plain C: first nanoseconds, then instructions, which are left out if the file is empty.
FILENAME == ARGV[1] { ns[$1] = $2; plain_ns[$1] = $3; next }
{ count[$1] = $2; plain_count[$1] = $3 }
function row(name, what,    form) {
    form = markdown ? "| %s | %.0f | %.0f | %.2f |" : "%-28s %9.0f %9.0f %7.2f"
    printf form, name, ns[what], plain_ns[what], ns[what] / plain_ns[what]
    form = markdown ? " %.0f | %.0f | %.2f |" : " %9.0f %9.0f %7.2f"
    if (what in count) printf form, count[what], plain_count[what], count[what] / plain_count[what]
    else if (markdown) printf " | | |"
    print ""
}
function head(    form) {
    form = markdown ? "| %s | %s | %s | %s | %s | %s | %s |\n" : "%-28s %9s %9s %7s %9s %9s %7s\n"
    if (markdown) printf form, "a line", "ns", "plain", "ratio", "instructions", "plain", "ratio"
    else printf form, "a line", "proved ns", "plain ns", "ratio", "proved", "plain", "ratio"
    if (markdown) print "|---|---:|---:|---:|---:|---:|---:|"
}
END {
    head()
    row("replay", "replay")
    row("calls alone", "calls")
    if (markdown) print ""
    printf "Lines a second: %.0f, in plain C %.0f.\n", 1e9 / ns["replay"], 1e9 / plain_ns["replay"]
    printf "A line takes %.2f times its call alone in time", ns["replay"] / ns["calls"]
    if ("replay" in count) printf ", %.2f times in instructions (asked: at most 2)", count["replay"] / count["calls"]
    print "."
}
