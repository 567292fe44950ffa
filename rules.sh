#!/usr/bin/env bash
# Whether the rules of docs/RULES.md and what cites them fit together.
# - Every rule that is cited is a rule: in README.md, in docs/, and in the comments of crates/*/specs and crates/*/src.
#   A citation is the word rule or rules and numbers after it, as in `rule 7.6`, `rules 7.6 and 7.7`, `rules 4.1 to 4.7`, `rules 7.6, 7.7 and 13.14`;
#   a range is every rule from the first to the last in the rule book's order. The rule book itself names its rules by the number alone.
# - Every rule is cited in a comment of crates/*/specs, or the rule book says of it that nothing computes it.
# Another tree to check may be given: bash rules.sh FOLDER.
set -euo pipefail
cd "${1:-$(dirname "$0")}"
LC_ALL=C exec awk '
# A message with its file and line; all of them are printed before the end.
function bad_at(file, line, what) {
    printf "rules: %s:%d: %s\n", file, line, what > "/dev/stderr"
    faults++
}

# A rule that is cited in the line that is being read, where a range may begin.
function cite(number) {
    citations++
    if (!(number in place_of)) bad_at(FILENAME, FNR, "there is no rule " number)
    else if (FILENAME ~ /\/specs\//) cited[number] = 1
}

# The rules from one to another, in the order of the rule book.
function cite_range(first, last,    i) {
    cite(last)
    if (!(first in place_of) || !(last in place_of)) return
    if (place_of[first] >= place_of[last]) bad_at(FILENAME, FNR, "no range: rules " first " to " last)
    if (FILENAME ~ /\/specs\//) for (i = place_of[first]; i <= place_of[last]; i++) cited[rule[i]] = 1
}

# What a citation is, word by word. `before` is the word of it that was read last: "" outside of a citation, `rule`, `number`, `and` or `to`.
# A citation goes on in the next line of the same comment or paragraph, and ends where a number has another sign behind it than a comma.
function word(text,    number, behind) {
    sub(/^[(*`"]+/, "", text)
    if (before != "" && match(text, /^[0-9]+\.[0-9]+/)) {
        number = substr(text, 1, RLENGTH)
        behind = substr(text, RLENGTH + 1)
        if (behind !~ /^(\047s)?[].,;:?!)*`"]*$/) bad_at(FILENAME, FNR, "no citation: " text)
        else if (before == "to") cite_range(last_number, number)
        else cite(number)
        last_number = number
        before = behind == "" || behind == "," ? "number" : ""
    } else if (tolower(text) ~ /^rules?$/) before = "rule"
    else if (before == "number" && (text == "and" || text == "or")) before = "and"
    else if (before == "number" && text == "to") before = "to"
    else before = ""
}

# A line of text, word by word.
function read_line(line,    words, n, i) {
    n = split(line, words, " ")
    for (i = 1; i <= n; i++) word(words[i])
    if (n == 0) before = ""
}

# A line of the rule book, where each number with a point is that of a rule; a rule does not cite itself by its title.
function read_numbers(line) {
    sub(/^\*\*[0-9]+\.[0-9]+ /, "", line)
    while (match(line, /[0-9]+\.[0-9]+/)) {
        cite(substr(line, RSTART, RLENGTH))
        line = substr(line, RSTART + RLENGTH)
    }
}

FNR == 1 {
    file++
    before = ""
}

# The rule book, read for its rules: number, place, and whether anything computes it.
file == 1 {
    if ($0 !~ /^\*\*[0-9]/) next
    if ($0 !~ /^\*\*[0-9]+\.[0-9]+ [^*]+\*\* \([^)]+\)\. /) {
        bad_at(FILENAME, FNR, "a rule does not begin as `**7.6 Name** (1). `")
        next
    }
    number = substr($1, 3)
    if (number in place_of) bad_at(FILENAME, FNR, "the rule " number " stands in line " rule_at[number] " too")
    rule[++rules] = number
    place_of[number] = rules
    rule_at[number] = FNR
    marked = $0
    sub(/^\*\*[^*]+\*\* /, "", marked)
    sub(/\).*$/, "", marked)
    if (marked ~ /nothing computes it/) outside[number] = 1
    next
}

# The rule book once more, for the rules that it names.
FILENAME == "docs/RULES.md" {
    read_numbers($0)
    next
}

# Code: comments alone, one line after another.
FILENAME ~ /\.(antt|rt)$/ {
    at = match($0, FILENAME ~ /\.antt$/ ? "(^| )--( |$)" : "(^| )//( |$)")
    if (at) read_line(substr($0, at + RLENGTH))
    if (!at) before = ""
    next
}

# Documents: all of it.
{ read_line($0) }

END {
    if (!rules) bad_at("docs/RULES.md", 0, "there is no rule")
    for (i = 1; i <= rules; i++)
        if (!(rule[i] in cited) && !(rule[i] in outside)) bad_at("docs/RULES.md", rule_at[rule[i]], "no comment of specs/ cites the rule " rule[i])
    if (faults) exit 1
    printf "rules: %d rules, %d citations, all of rules that there are\n", rules, citations
}
' docs/RULES.md docs/*.md README.md crates/*/specs/*.antt crates/*/src/*.rt
