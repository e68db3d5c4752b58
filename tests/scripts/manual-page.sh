# The manual pages have no warning, name all options of their programs, and their examples, taken from the pages as they are shown, write what they
# say.
. "$TOP/tests/expect.sh"

if command -v mandoc > /dev/null; then
    mandoc -T lint -W warning "$TOP"/man/*.[18]
else
    echo 'skipped: not installed (Debian: mandoc), to look for warnings in the manual pages'
fi
# the sections of each page that have a place by custom stand in its order, as mandoc has it
printf '%s\n' NAME SYNOPSIS DESCRIPTION ENVIRONMENT FILES 'EXIT STATUS' EXAMPLES DIAGNOSTICS 'SEE ALSO' CAVEATS > order
for page in "$TOP"/man/*.[18]; do
    sed -n 's/^\.Sh //p' "$page" | grep -Fx -f order > sections
    same "$(cat sections)" "$(grep -Fx -f sections order)"
done
# each program of the table has a page, which names its options
"$TOP/completions/make" --table | grep -v '^ ' | grep . > lines
while read -r program words; do
    page=$(grep -lE "^\.Nm $program( ,)?\$" "$TOP"/man/*.[18] | head -n 1)
    [ "$page" ] || { printf '%s has no manual page\n' "$program"; exit 1; }
    for option in $(grep -o -- '--[a-z-]*' <<< "$words"); do
        grep -qE "Fl -?${option#-}( |\$)|Fl .*[|] ${option#-}( |\$)" "$page" || { printf '%s does not name %s\n' "$page" "$option"; exit 1; }
    done
done < lines

for tool in man:man-db groff:groff-base col:bsdextrautils; do
    if ! command -v "${tool%:*}" > /dev/null; then
        echo "skipped: not installed (Debian: ${tool#*:}), to show the manual pages and run their examples"
        exit 0
    fi
done

mkdir bin
ln -s "$QUORUMD" bin/quorumd
ln -s "$QUORUMCTL" bin/quorumctl
ln -s "$TOP/bin/story" "$TOP/bin/timeline" "$TOP/examples/live/check" "$TOP/contrib/quorumd-agent" bin
PATH=$PWD/bin:$PATH

# examples PAGE: in a folder of its own, each line `$ COMMAND` goes into N.command, with the lines after it while a bracket is open, and the
# others into N.wanted
examples() {
    MANWIDTH=200 man -E UTF-8 -l "$1" | col -bx | awk '
        /^[A-Z]/ { inside = $1 == "EXAMPLES" }
        !inside || match($0, /[^ ]/) < 10 { next }
        { sub(/^ +/, "") }
        /^\$ / { name = sprintf("%02d", ++number); open = 0; sub(/^\$ /, ""); printf "" > (name ".wanted"); command = 1 }
        command { print > (name ".command"); open += gsub(/\(/, "(") - gsub(/\)/, ")"); command = open > 0; next }
        { print > (name ".wanted") }'
}

# page_runs NAME COUNT: the page of that name has at least so many examples
page_runs() {
    local page=$TOP/man/$1 command found=0
    same "$(man --warnings -E UTF-8 -l "$page" 2>&1 > /dev/null)" ""
    mkdir "$1"
    cd "$1"
    # what the examples read
    printf 'nodelist {\nnode {\nnodeid: 1\n}\n}\nquorum {\ntwo_node: 1\n}\n' > corosync.conf
    cp "$TOP/examples/two-node.conf" cluster.conf
    printf 'nodelist {\nnode {\nnodeid: 1\n}\n}\n----\ntiming 5000 10000 1000 2000 1000\nboot 1 0\npass 5050\n' > schedule
    examples "$page"
    for command in *.command; do
        bash "$command" > got 2>&1 || true
        same "$(cat "$command" got)" "$(cat "$command" "${command%.command}.wanted")"
        found=$((found + 1))
    done
    [ "$found" -ge "$2" ] || { printf 'the examples of %s were not found\n' "$page"; exit 1; }
    cd ..
}

page_runs quorumd.8 7
page_runs quorumctl.8 8
page_runs quorumd-agent.8 2
page_runs story.1 1
page_runs timeline.1 3
page_runs scenario.1 1
