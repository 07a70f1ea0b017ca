# Prints a source file with wrong programs in it: awk -v blocks=N -f apply.awk BLOCK.. FILE, N of them (1 if not said).
# BLOCK is a block of a .edits file, or a must-fail edit: `old:` lines in a row are one text, the `new:` lines after them what takes its
# place. Texts are looked for in the file as it stands, each has to be there exactly once, and no two may overlap.
# With -v places=1 it prints the first and the last line of each text in place of the file.
# Exit status 3: a text isn't there; 4: it is there more than once; 5: two overlap, or there is none.
FNR == 1 { files++; last = "" }
files <= (blocks ? blocks : 1) {
    if (/^old: /) {
        if (last != "old") n++
        old[n] = (last == "old" ? old[n] "\n" : "") substr($0, 6)
        last = "old"
    } else if (/^new:/) {
        new[n] = (last == "new" ? new[n] "\n" : "") substr($0, 6)
        last = "new"
    }
    next
}
{ text = text $0 "\n" }
END {
    if (!n) exit 5
    for (i = 1; i <= n; i++) {
        at[i] = index(text, old[i])
        if (!at[i]) exit 3
        if (index(substr(text, at[i] + 1), old[i])) exit 4
        if (places) {
            first = 1 + split(substr(text, 1, at[i] - 1), lines, "\n")
            if (first > 1) first--
            print first, first + split(old[i], lines, "\n") - 1
        }
    }
    if (places) exit
    done = 1
    for (turn = 1; turn <= n; turn++) {
        first = 0
        for (i = 1; i <= n; i++) if (!used[i] && (!first || at[i] < at[first])) first = i
        if (at[first] < done) exit 5
        out = out substr(text, done, at[first] - done) new[first]
        done = at[first] + length(old[first])
        used[first] = 1
    }
    printf "%s%s", out, substr(text, done)
}
