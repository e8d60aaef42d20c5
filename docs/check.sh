#!/bin/sh
# docs/check.sh: whether the pages name what is there; ends with 1 where one does not.
#
# Pages name definitions, theorems and functions behind their file, on one line: `path/File.antt`: `name`, `name`. Paths are below crates/ or the root.
#  - In the README and in docs/ each name so written is declared in its file, and each path is there.
#  - In docs/RULES.md and docs/PROMISES.md no name stands without its file, each rule names something, and both have the same headings and rules.
#  - Each path of the code, crate::module::item or crate::module::, in backticks or in a drawing, is that of something which is there.
#  - A block below <!-- path: name --> is the file's own lines, one right after the other but for a line `..`, up to where the name's statement ends.
set -eu
cd "$(dirname "$0")/.."
work=$(mktemp -d)
trap 'rm -rf "$work"' EXIT

# What is there: each path, and each name that an .antt or .rt file declares.
find README.md archive crates.txt run .ci bench crates docs examples fuzz include rust tests web -name target -prune -o -print > "$work/paths"
cat > "$work/declared.awk" <<'AWK'
FNR == 1 { body = 0 }
{ line = $0; sub(/^ +/, "", line); declares = 0 }
# name : type, data name, record name
FILENAME ~ /antt$/ {
    while (match(line, /^(abbrev|unfoldable|pub|data|record) /)) {
        if (line ~ /^(data|record) /) declares = 1
        line = substr(line, RLENGTH + 1)
    }
    split(line, word, " ")
    if (declares || word[2] == ":") print FILENAME, word[1]
    next
}
# fn, enum, struct and const, and the lines of an enum or a struct
{
    while (match(line, /^(pub|pub\(crate\)|extern|"C"|fn|enum|struct|const) /)) {
        if (line ~ /^(fn|enum|struct|const) /) declares = 1
        line = substr(line, RLENGTH + 1)
    }
    sub(/[^A-Za-z0-9_].*/, "", line)
    if (declares || (body && line != "")) print FILENAME, line
    if (/^(pub |pub\(crate\) )?(enum|struct) .*\{$/) body = 1
    if (/^\}/) body = 0
}
AWK
find crates -name target -prune -o \( -name '*.antt' -o -name '*.rt' \) -exec awk -f "$work/declared.awk" {} + > "$work/declared"

cat > "$work/pages.awk" <<'AWK'
function fault(what) {
    print FILENAME ":" FNR ": " what
    faults++
}

# The path from the root, or "" where nothing is there; a * stands for any name.
function found(token,   path, pattern, i) {
    path = token
    sub(/ .*/, "", path)
    sub(/^\.\//, "", path)
    sub(/\/$/, "", path)
    if (path in there) return path
    if ("crates/" path in there) return "crates/" path
    pattern = path
    gsub(/\./, "\\.", pattern)
    gsub(/\*/, "[^/]*", pattern)
    for (i = 1; i <= paths; i++)
        if (place[i] ~ "^(crates/([^/]*/)?)?" pattern "$") return place[i]
    return ""
}

# A path of the code: a module, and what it declares.
function check_item(path,   part, n, module) {
    n = split(path, part, "::")
    module = "crates/" part[1] "/src/" (n == 2 ? "lib" : part[2]) ".rt"
    if (!(module in there)) fault("no such module: " path)
    else if (part[n] != "" && !((module " " part[n]) in declared)) fault(module " does not declare " part[n])
    else items++
}

# The names of a line, each behind its file.
function check_line(   n, i, token, file, part, beside) {
    n = split($0, part, "`")
    if (n && n % 2 == 0) fault("a backtick without its other")
    for (i = 2; i <= n; i += 2) {
        token = part[i]
        if (token ~ /^[a-z_0-9]+::/) check_item(token)
        if (beside != "" && token !~ /\// && (part[i - 1] == ": " || part[i - 1] == ", ")) {
            if (beside !~ /\.(antt|rt)$/) fault("names are looked for in .antt and .rt only: " beside)
            else if (!((beside " " token) in declared)) fault(beside " does not declare " token)
            else names[FILENAME]++
            continue
        }
        beside = ""
        if (token in there || (token ~ /\// && token !~ /^target\//)) {
            file = found(token)
            if (file == "" && (strict || token ~ known)) fault("no such path: " token)
            if (part[i + 1] == ": ") beside = file
        } else if (strict && !("crates/" token in there) && token !~ /^[0-9A-F]+( [0-9A-F]+)*$/) fault("no file beside " token)
    }
}

# The place in the source, behind a place, of the lines of the block from i up to the next `..`; 0 where there is none.
function run_at(i, behind, n,   start, k) {
    for (start = behind + 1; start <= n; start++) {
        for (k = 0; i + k <= lines && block[i + k] != ".." && source[start + k] == block[i + k]; k++);
        if (i + k > lines || block[i + k] == "..") return start
    }
    return 0
}

# The block is lines of its file, in order; its last run starts with the name's statement and ends before the definition, which starts with the name.
function check_block(   n, at, i, line, first) {
    n = 0
    while ((getline line < quoted) > 0) {
        sub(/^ +/, "", line)
        source[++n] = line
    }
    close(quoted)
    at = 0
    for (i = 1; i <= lines; i++) {
        if (block[i] == "..") continue
        at = run_at(i, at, n)
        if (!at) return fault("not so in " quoted ": " block[i])
        first = block[i]
        while (i < lines && block[i + 1] != "..") { i++; at++ }
    }
    if (first !~ "^(abbrev )?(pub )?" name " :") return fault("the block does not state " name)
    if (index(source[at + 1], name " ") != 1) return fault("the statement of " name " goes on")
    quotes++
}

BEGIN { known = "^(\\./)?(\\.ci|bench|crates|docs|examples|fuzz|include|rust|tests|web)/|\\.(antt|rt|edit|sh)$" }
FILENAME == ARGV[1] { there[$0] = 1; place[++paths] = $0; next }
FILENAME == ARGV[2] { declared[$0] = 1; next }
FNR == 1 { strict = FILENAME ~ /(RULES|PROMISES)\.md$/; fenced = 0; quoted = "" }
/^<!-- [^ ]+: [^ ]+ -->$/ {
    name = $3
    quoted = found(substr($2, 1, length($2) - 1))
    if (quoted == "") fault("no such path: " $2)
    next
}
/^ *```/ {
    fenced = !fenced
    drawing = /mermaid/
    if (fenced) lines = 0
    else if (quoted != "") { check_block(); quoted = "" }
    next
}
fenced {
    line = $0
    sub(/^ +/, "", line)
    block[++lines] = line
    while (drawing && match(line, /[a-z_0-9]+(::[A-Za-z_0-9]+)+/)) {
        check_item(substr(line, RSTART, RLENGTH))
        line = substr(line, RSTART + RLENGTH)
    }
    next
}
strict && /^##/ { outline[FILENAME] = outline[FILENAME] $0 "\n" }
strict && /^\| [C-EG-Y][0-9]+ / {
    rules[FILENAME]++
    outline[FILENAME] = outline[FILENAME] $2 "\n"
    before = names[FILENAME]
    check_line()
    if (names[FILENAME] == before) fault($2 " names nothing")
    next
}
{ check_line() }
END {
    a = "docs/RULES.md"
    b = "docs/PROMISES.md"
    split(outline[a] "the end", x, "\n")
    split(outline[b] "the end", y, "\n")
    for (i = 1; x[i] == y[i] && x[i] != "the end"; i++);
    if (x[i] != y[i]) { print a " goes on with " x[i] ", " b " with " y[i]; faults++ }
    found_all = rules[a] + 0 " rules, " names[a] + 0 " names in " a " and " names[b] + 0 " in " b ", " quotes + 0 " quoted statements, " items + 0 " paths of the code"
    if (rules[a] < 100 || names[a] < 300 || names[b] < 300 || quotes < 2 || items < 30) { print "too little found: " found_all; faults++ }
    if (faults) exit 1
    print "pages: " found_all
}
AWK
awk -f "$work/pages.awk" "$work/paths" "$work/declared" README.md docs/*.md
