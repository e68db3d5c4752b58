# For the labs: what they take from docs/MACHINES.md and docs/NIGHT.md beside it, so that the pages and the labs cannot differ. The one who reads this has set $page.
# shellcheck shell=bash

# block KIND: the lines of the block of the two pages that begins with ```KIND
block() {
    # shellcheck disable=SC2154
    awk -v head="\`\`\`$1" '$0 == head { inside = 1; next } /^```$/ && inside { found = 1; exit } inside; END { exit !found }' "$page" "${page%/*}/NIGHT.md" ||
        { echo "$page has no block $1" >&2; return 1; }
}
