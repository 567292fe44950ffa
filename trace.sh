#!/usr/bin/env bash
# Whether docs/TRACE.md has a block for each rule of docs/RULES.md, and speaks of what there is.
# - Blocks stand in the rules' order, under the rule book's section headings, and the title of each is the rule's number and name.
# - A block has the lines definition, contract, proof and refuted, each with references or with `none: REASON`, and no line is over 160 columns.
# - Each reference names a file that exists, of a kind that fits its line, and the names in it are defined there.
# - Every public function of a library crate with an `ensures` is named in some contract line, or in the section "Functions below the calls".
# Another table to check may be given: bash trace.sh FILE.
set -euo pipefail
table=$(realpath "${1:-$(dirname "$0")/docs/TRACE.md}")
cd "$(dirname "$0")"
table=${table#"$PWD"/}
LC_ALL=C exec awk -v table="$table" '
# A message with its file and line; all of them are printed before the end.
function bad_at(file, line, what) {
    printf "trace: %s:%d: %s\n", file, line, what > "/dev/stderr"
    faults++
}

# A message about the line that is being read.
function bad(what) {
    bad_at(FILENAME, FNR, what)
}

# Whether a text begins with another.
function begins(text, front) {
    return substr(text, 1, length(front)) == front
}

# The columns of a line: its characters, each of which has one byte that does not continue another.
function columns(line) {
    gsub(/[\200-\277]/, "", line)
    return length(line)
}

# The name that a line of code declares, or nothing.
function declared(line) {
    sub(/^ +/, "", line)
    sub(/^pub +/, "", line)
    sub(/^extern "C" +/, "", line)
    if (line !~ /^(fn|struct|enum|const) /) return ""
    sub(/^[a-z]+ +/, "", line)
    sub(/[^A-Za-z0-9_].*$/, "", line)
    return line
}

# The name that a line of a definition or of a law gives a meaning, or nothing.
function defined(line,    words, n) {
    sub(/^ +/, "", line)
    while (sub(/^(abbrev|unfoldable|pub) +/, "", line)) continue
    n = split(line, words, " ")
    if (n > 1 && (words[1] == "record" || words[1] == "data")) return words[2]
    return n > 1 && words[2] == ":" ? words[1] : ""
}

# The names that a file has, read once: `known` has each behind its path, and `lines` what a program writes.
function load(path,    line, name, more) {
    seen[path] = "missing"
    more = (getline line < path)
    if (more < 0) return
    seen[path] = "there"
    while (more > 0) {
        name = ""
        if (path ~ /\/stdout$/) lines[path, ++count[path]] = line
        else if (path ~ /\/stdin$/ && sub(/^(journal|sheet) [0-9]+ /, "", line)) name = line
        else if (path ~ /\.antt$/) name = defined(line)
        else if (path ~ /\.r[ts]$/) name = declared(line)
        if (name != "") known[path, name] = 1
        more = (getline line < path)
    }
    close(path)
}

# Whether a file has a name: cases by their whole name, output by how a line of it begins.
function has(path, name,    i) {
    if (path !~ /\/stdout$/) return (path, name) in known
    for (i = 1; i <= count[path]; i++) if (begins(lines[path, i], name)) return 1
    return 0
}

# Whether a line of this label may name such a file.
function fits(label, path) {
    if (label == "definition") return path ~ /\/specs\/[^\/]*\.antt$|\/src\/.*\.rt$/
    if (label == "contract") return path ~ /\/src\/.*\.rt$|\/proofs\/[^\/]*\.antt$/
    if (label == "proof") return path ~ /\/proofs\/.*\.antt$/
    if (label == "refuted") return path ~ /\/must-fail\/[^\/]*\.edit$|\/std(in|out)$|^(bench|bindings)\//
    if (label == "functions") return path ~ /\/src\/.*\.rt$/
    return 1
}

# One reference, `path` or `path: name, name`; a case or a line of output is one name, whatever its commas.
function check(ref, label,    path, names, at, n, i, name) {
    references++
    at = index(ref, ": ")
    path = at ? substr(ref, 1, at - 1) : ref
    names = at ? substr(ref, at + 2) : ""
    if (path !~ /^(docs|samples|bench|bindings)\//) path = "crates/" path
    if (path !~ /\.[a-z]+$|\/std(in|out)$/) {
        bad(ref " names no file")
        return
    }
    if (!fits(label, path)) bad("a " label " line does not name " path)
    if (!(path in seen)) load(path)
    if (seen[path] == "missing") {
        bad("there is no file " path)
        return
    }
    if (!at) {
        if (path ~ /\.(antt|rt|rs)$|\/std(in|out)$/ && path !~ /\/(Proof|Answers|Invariants)\.antt$/) bad(ref " gives no name")
        return
    }
    if (path ~ /\/std(in|out)$/) {
        if (!has(path, names)) bad(path " has no case " names)
        return
    }
    n = split(names, name, ", ")
    for (i = 1; i <= n; i++) {
        if (!has(path, name[i])) bad(path " defines no " name[i])
        if (label == "contract" || label == "functions") named[path, name[i]] = 1
    }
}

# The references on one line of a field; none may go on in the next line, and only commas stand between them unless the field says `none`.
function check_line(text) {
    while (match(text, /`[^`]*`/)) {
        check(substr(text, RSTART + 1, RLENGTH - 2), reason ? "none" : field)
        text = substr(text, 1, RSTART - 1) substr(text, RSTART + RLENGTH)
        found++
    }
    if (index(text, "`")) bad("a reference goes on in the next line")
    else if (!reason && text !~ /^[ ,]*$/) bad("more than references under " field ": " text)
}

# A field begins: its label must be the next one of its block.
function begin_field(label, text) {
    end_field()
    field = label
    field_at = FNR
    found = 0
    reason = begins(text, "none")
    if (reason && text !~ /^none: [^ ]/) bad("none has no reason")
    if (place == "rules") {
        fields++
        if (label != order[fields]) bad("the line of " label " stands where that of " (fields > 4 ? "no field" : order[fields]) " belongs")
    } else if (label !~ /^(functions|for|refuted)$/) bad("there is no line of " label " here")
    if (label != "for") check_line(text)
}

# A field ends: it has a reference or a reason.
function end_field() {
    if (field != "" && field != "for" && !found && !reason) bad_at(table, field_at, "no reference under " field)
    field = ""
}

# A block ends: a block of a rule has its four fields.
function end_block() {
    end_field()
    if (place == "rules" && title != "" && fields < 4) bad_at(table, title_at, title " has " fields + 0 " of its four lines")
    title = ""
    fields = 0
}

# A block of a rule begins: it must be that of the next rule, under the heading of its section.
function begin_block(    number) {
    number = $2
    if (!(number in place_of)) {
        bad("there is no rule " number)
        return
    }
    if (number in block_at) bad("the rule " number " has a block in line " block_at[number] " too")
    else if (place_of[number] != ++next_rule) bad("the rule " number " stands where " rule[next_rule] " belongs")
    block_at[number] = FNR
    next_rule = place_of[number]
    if (title != number " " name_of[number]) bad("the title of the rule is: " number " " name_of[number])
    if (heading != section_of[number]) bad("the rule " number " belongs under: ## " section_of[number])
}

BEGIN {
    split("definition contract proof refuted", order, " ")
}

FNR == 1 { file++ }

# The rule book: its sections, and each rule with its name and place.
file == 1 {
    if ($0 ~ /^## /) section = substr($0, 4)
    if ($0 !~ /^\*\*[0-9]+\.[0-9]+ [^*]+\*\* \(/) next
    number = substr($1, 3)
    text = substr($0, 4 + length(number))
    rule[++rules] = number
    place_of[number] = rules
    rule_at[number] = FNR
    name_of[number] = substr(text, 1, index(text, "**") - 1)
    section_of[number] = section
    next
}

# The trace.
file == 2 && columns($0) > 160 { bad("a line of more than 160 columns") }
file == 2 && /^## / {
    end_block()
    heading = substr($0, 4)
    place = heading ~ /^[0-9]+ / ? "rules" : heading == "Functions below the calls" ? "functions" : "last"
    next
}
file == 2 && (place == "" || place == "last") { next }
file == 2 && /^### / {
    end_block()
    title = substr($0, 5)
    title_at = FNR
    if (place == "rules") begin_block()
    next
}
file == 2 && /^- [a-z]+: / {
    text = $0
    sub(/^- [a-z]+: /, "", text)
    begin_field(substr($2, 1, length($2) - 1), text)
    next
}
file == 2 && /^  [^ ]/ && field != "" {
    if (field != "for") check_line($0)
    next
}
file == 2 {
    if ($0 == "") end_field()
    else if (place == "rules") bad("no line of a block: " $0)
    next
}

# The code: which modules are public, and which public functions say what they ensure.
FILENAME ~ /\/lib\.rt$/ && FNR == 1 { library[FILENAME] = 1 }
/^ *pub mod / {
    path = FILENAME
    sub(/[^\/]*$/, "", path)
    sub(/;.*$/, "", $3)
    if (FILENAME ~ /\/lib\.rt$/) library[path $3 ".rt"] = 1
}
/^ *(pub +)?(extern "C" +)?fn / {
    function_at = FNR
    public = /^ *pub / ? declared($0) : ""
}
/^ *ensures / && public != "" {
    promised[++promises] = public
    promised_in[promises] = FILENAME
    promised_at[promises] = function_at
    public = ""
}

END {
    end_block()
    if (!rules) bad_at("docs/RULES.md", 0, "there is no rule")
    for (i = 1; i <= rules; i++)
        if (!(rule[i] in block_at)) bad_at("docs/RULES.md", rule_at[rule[i]], "the rule " rule[i] " has no block in " table)
    for (i = 1; i <= promises; i++) {
        if (!(promised_in[i] in library)) continue
        contracts++
        if (!((promised_in[i], promised[i]) in named)) bad_at(promised_in[i], promised_at[i], promised[i] " is in no contract line of " table)
    }
    if (!contracts) bad_at("crates", 0, "there is no public contract")
    if (faults) exit 1
    printf "trace: %d rules, %d references, all there; %d public contracts, all named\n", rules, references, contracts
}
' docs/RULES.md "$table" crates/*/src/*.rt
