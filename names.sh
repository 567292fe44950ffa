#!/usr/bin/env bash
# Whether the tree keeps what its reader is told: that what a contract cites is in specs/, that a name of specs/ has one meaning, and that lines
# fit the page.
# - No file of src/ or specs/ names a file of proofs/.
# - No name is defined in two files of specs/. One that must be is listed in BEGIN with its reason, as known["NAME"] = "why"; none is.
# - No line of src/ and specs/ is wider than 160 columns, and no line of proofs/ wider than 200.
set -euo pipefail
cd "$(dirname "$0")"
find crates -name out -prune -o -name '*.rt' -path '*/src/*' -print -o -name '*.antt' -print | LC_ALL=C sort | LC_ALL=C awk '
function bad(what) {
    printf "names: %s: %s\n", at, what > "/dev/stderr"
    faults++
}

# The columns of a line: its characters, each of which has one byte that does not continue another.
function columns(line) {
    gsub(/[\200-\277]/, "", line)
    return length(line)
}

# The name that a line of specs/ defines, or nothing.
function defined(line,    words, n, i) {
    if (line ~ /^( |--|use |infix)/) return ""
    n = split(line, words, " ")
    i = 1
    while (words[i] == "abbrev" || words[i] == "unfoldable" || words[i] == "pub") i++
    if (words[i] == "record" || words[i] == "data") return words[i + 1]
    return words[i + 1] == ":" || words[i + 1] ~ /^\{/ && line ~ / : / ? words[i] : ""
}

{
    path = $0
    count = 0
    specs = path ~ /\/specs\//
    width = path ~ /\/proofs\// ? 200 : 160
    while ((getline line < path) > 0) {
        count++
        at = path ":" count
        if (columns(line) > width) bad("a line of more than " width " columns")
        if ((specs || path ~ /\.rt$/) && line ~ /^(ghost )?use Rattle[^ ]*\.proofs\./) bad("what a contract cites is in specs/")
        name = specs ? defined(line) : ""
        if (name == "") continue
        names++
        if (name in place && !(name in known)) bad(name " is defined in " place[name] " too")
        else place[name] = path
    }
    close(path)
}

END {
    if (!names) { at = "crates"; bad("no name is defined") }
    if (faults) exit 1
    printf "names: %d names of specs/, each with one meaning\n", names
}
'
