#!/bin/sh
# Whether the table of crates in docs/ARCHITECTURE.md is the tree's: a row for each family and each crate of crates.txt, in its order.
# - A family is a comment of crates.txt right before a crate: its name, a colon and what it is. docs/families.svg has the name too.
# - A crate's row has the first line of its src/lib.rt or src/main.rt, a comment, and nothing else.
# - A row has at most 150 columns.
# sh rooms.sh --print prints the table as it should be, and sh rooms.sh --write puts it into the document.
set -eu
cd "$(dirname "$0")"
document=docs/ARCHITECTURE.md
picture=docs/families.svg

# The table that the tree asks for.
table() {
    LC_ALL=C awk -v picture="$picture" '
    function bad(what) {
        printf "rooms: %s\n", what > "/dev/stderr"
        faults++
    }

    # A row; its columns are its characters, each of which has one byte that does not continue another.
    function row(text,    columns) {
        columns = text
        gsub(/[\200-\277]/, "", columns)
        if (length(columns) > 150) bad("a row of more than 150 columns: " text)
        print text
    }

    # The first line of a crate, without the marks of a comment.
    function held(crate,    path, line) {
        path = "crates/" crate "/src/lib.rt"
        if ((getline line < path) <= 0) {
            path = "crates/" crate "/src/main.rt"
            if ((getline line < path) <= 0) line = ""
        }
        close(path)
        if (!sub(/^\/\/ /, "", line)) bad(crate " has no first line that is a comment")
        return line
    }

    BEGIN {
        while ((getline line < picture) > 0) drawn = drawn line "\n"
        print "| Crate | What it holds |"
        print "|---|---|"
    }

    /^#/ { family = substr($0, 3); next }
    /^[a-z]/ {
        if (family != "") {
            at = index(family, ": ")
            if (!at) bad("a family has a name, a colon and what it is: " family)
            name = substr(family, 1, at - 1)
            if (!index(drawn, ">" name "</text>")) bad(picture " has no family " name)
            row("| **" name "** | **" substr(family, at + 2) "** |")
            family = ""
        }
        crate = $1
        sub(/:$/, "", crate)
        row("| `" crate "` | " held(crate) " |")
    }

    END { exit faults > 0 }
    ' crates.txt
}

# The table that the document has.
written() {
    LC_ALL=C awk '/^\| Crate \| What it holds \|$/ { inside = 1 } inside && !/^\|/ { exit } inside' "$document"
}

asked=$(table)
case ${1:-} in
    --print)
        printf '%s\n' "$asked"
        exit 0
        ;;
    --write)
        new=$(mktemp)
        ASKED=$asked LC_ALL=C awk '
        /^\| Crate \| What it holds \|$/ { print ENVIRON["ASKED"]; inside = 1 }
        inside && !/^\|/ { inside = 0 }
        !inside
        ' "$document" > "$new"
        cat "$new" > "$document"
        rm -f "$new"
        ;;
esac
found=$(written)
if [ "$found" != "$asked" ]; then
    old=$(mktemp)
    new=$(mktemp)
    printf '%s\n' "$found" > "$old"
    printf '%s\n' "$asked" > "$new"
    echo "rooms: the table of $document is not that of crates.txt (< has, > should have); sh rooms.sh --write mends it" >&2
    diff "$old" "$new" >&2 || true
    rm -f "$old" "$new"
    exit 1
fi
printf 'rooms: %s families and crates, each with its line\n' "$(printf '%s\n' "$asked" | tail -n +3 | wc -l | tr -d ' ')"
