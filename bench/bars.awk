# Of the table of a run of bench/bench.c: the ratios of each case, and whether the bars hold.
#   awk -f bench/bars.awk TABLE
function judged(ratio, bar) {
    if (bar == 0) return ratio == "" ? "|" : ratio " |"
    bars++
    if (ratio + 0 >= bar) return sprintf("%s | %.1f holds", ratio, bar)
    missed++
    return sprintf("%s | %.1f missed", ratio, bar)
}

BEGIN { FS = " *[|] *" }
/^\|/ && !/^\| case/ && !/^\|-/ {
    if (!($2 in letter)) cases[++n] = $2
    letter[$2] = $7
    same[$2] = $8
}
END {
    print "| case | proved / to the letter | bar | proved / the same | bar |"
    print "|---|---|---|---|---|"
    for (k = 1; k <= n; k++) {
        name = cases[k]
        long = name ~ /long word/
        print "| " name " | " judged(letter[name], long && name ~ /^(R to R|B to B|D to B)/ ? 2 : 0) " | " judged(same[name], long ? 1 : 0) " |"
    }
    print missed ? "\n" missed " of " bars " bars are missed." : "\nAll " bars " bars hold."
}
