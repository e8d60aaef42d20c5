#!/bin/sh
# docs/picture.sh: draws the crates by layer, as crates.txt has them, between the two marks of docs/ARCHITECTURE.md.
# docs/picture.sh --check: changes nothing, and ends with 1 where the page differs from what crates.txt gives.
#
#  - A crate's layer is one more than the highest that it uses. An arrow to what another arrow leads to anyway is left out. What is no crate of the
#    repository is the kit's, or `rt` refuses it; it is not drawn.
#  - Either way it ends with 1 where crates.txt names a crate that is not there, or leaves one out; and where the crates with a row in the table of
#    docs/ARCHITECTURE.md, or those in the block of the README, are not those of crates.txt.
set -eu
cd "$(dirname "$0")/.."
page=docs/ARCHITECTURE.md
work=$(mktemp -d)
trap 'rm -rf "$work"' EXIT

case "$*" in
    '') check='' ;;
    --check) check=yes ;;
    *) echo "docs/picture.sh takes --check or nothing" >&2; exit 1 ;;
esac

for source in crates/*/src/lib.rt crates/*/src/main.rt; do echo "$source"; done > "$work/sources"

cat > "$work/draw.awk" <<'AWK'
function fault(what) {
    print "crates.txt" (ended ? "" : ":" FNR) ": " what > "/dev/stderr"
    faults++
}

# Whether the crate's line names another that leads to this one.
function implied(name, used,   n, i, word) {
    n = split(uses[name], word, " ")
    for (i = 1; i <= n; i++)
        if ((word[i], used) in leads) return 1
    return 0
}

function node(name) { return name in program ? name "([" name "])" : name }

FILENAME == ARGV[1] {
    split($0, part, "/")
    there[part[2]]
    if (part[4] == "main.rt") program[part[2]]
    next
}
/^#/ || /^$/ { next }
!/^[a-z0-9_]+( staticlib)?:( [a-z0-9_]+)*$/ { fault("no crate and what it uses: " $0); next }
{
    sub(/ staticlib:/, ":")
    name = substr($1, 1, length($1) - 1)
    if (name in layer) fault(name " has two lines")
    if (!(name in there)) fault("no such crate: " name)
    top = 1
    for (i = 2; i <= NF; i++) {
        if (!($i in there)) continue
        if (!($i in layer)) { fault(name " uses " $i ", which no line above names"); continue }
        uses[name] = uses[name] " " $i
        if (layer[$i] >= top) top = layer[$i] + 1
        leads[name, $i]
        for (j = 1; j <= crates; j++) if (($i, crate[j]) in leads) leads[name, crate[j]]
    }
    layer[name] = top
    crate[++crates] = name
    if (top > highest) highest = top
    if (!(top in first)) first[top] = name
}
END {
    ended = 1
    for (name in there) if (!(name in layer)) fault("crates/" name " has no line")
    if (faults) exit 1
    print "```mermaid"
    print "flowchart TB"
    for (k = highest; k >= 1; k--) {
        print "    subgraph layer" k "[\"" k "\"]"
        for (i = 1; i <= crates; i++) if (layer[crate[i]] == k) print "        " node(crate[i])
        print "    end"
    }
    for (i = crates; i >= 1; i--) {
        n = split(uses[crate[i]], word, " ")
        arrows = ""
        for (j = 1; j <= n; j++) {
            if (implied(crate[i], word[j])) continue
            arrows = arrows (arrows == "" ? "" : " & ") word[j]
            if (layer[word[j]] == layer[crate[i]] - 1) held[word[j]]
        }
        if (arrows != "") print "    " crate[i] " --> " arrows
    }
    # A link that is not seen keeps a crate in its layer where no arrow from the next one does.
    for (i = crates; i >= 1; i--)
        if (layer[crate[i]] < highest && !(crate[i] in held)) print "    " first[layer[crate[i]] + 1] " ~~~ " crate[i]
    print "```"
}
AWK
awk -f "$work/draw.awk" "$work/sources" crates.txt > "$work/picture"

# The page with the picture between its marks.
cat > "$work/place.awk" <<'AWK'
FILENAME == ARGV[1] { picture = picture $0 "\n"; next }
/^<!-- docs\/picture.sh draws this from crates.txt -->$/ { begun++; inside = 1; printf "%s\n%s", $0, picture; next }
/^<!-- end of the picture -->$/ { ended += inside; inside = 0 }
!inside
END { if (begun != 1 || ended != 1) { print FILENAME ": the two marks of the picture do not stand there once" > "/dev/stderr"; exit 1 } }
AWK
awk -f "$work/place.awk" "$work/picture" "$page" > "$work/page"

# The crates that the pages name are those of crates.txt.
cat > "$work/named.awk" <<'AWK'
function name_it(what) { if ((FILENAME, what) in named) fault(FILENAME, what " is named twice"); named[FILENAME, what] }
function fault(page, what) { print page ": " what > "/dev/stderr"; faults++ }
FILENAME == ARGV[1] { if (/^[a-z]/) { sub(/[ :].*/, ""); crate[$0] } next }
/^## / { section = $0 }
/^```/ { fenced = !fenced; next }
FILENAME == ARGV[2] && /^\| crate \| / { table = 1 }
FILENAME == ARGV[2] && !/^\|/ { table = 0 }
table && /^\| `/ { split($0, part, "`"); name_it(part[2]) }
FILENAME == ARGV[3] && fenced && section == "## The crates" {
    match($0, /  +/)
    n = split(substr($0, RSTART), word, " ")
    for (i = 1; i <= n; i++) name_it(word[i])
}
END {
    for (k = 2; k <= 3; k++)
        for (name in crate) if (!((ARGV[k], name) in named)) fault(ARGV[k], "the crate " name " is not named")
    for (key in named) {
        split(key, part, SUBSEP)
        if (!(part[2] in crate)) fault(part[1], part[2] " is no crate of crates.txt")
    }
    exit faults > 0
}
AWK
awk -f "$work/named.awk" crates.txt "$page" README.md

if [ -z "$check" ]; then
    cat "$work/page" > "$page"
elif ! cmp -s "$page" "$work/page"; then
    echo "$page: the picture is not the one that crates.txt gives; sh docs/picture.sh draws it" >&2
    diff -u "$page" - < "$work/page" >&2 || exit 1
fi
