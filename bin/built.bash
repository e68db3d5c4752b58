# For bin/quorumd, bin/quorumctl, bench/qn_soak_nodes and bench/qn_tests: starts the program $name of the repository $top with the words
# of the script, which is called $said where it is not bin/$name. It takes the program that was proved and built here, unless a source has changed
# since; else the one of release/, if it was proved from these very sources; else it starts nothing, says what can be done, and ends with 1. Nothing
# is proved unasked: the word --build-only proves and builds the program here and ends. After the word --released the program of release/ is started,
# whatever the sources are; the word --program prints where the program is. What is built stands in out/ of its crate, or of $folder. A released
# program is tried with --version before it is taken, or with the words $tried_with.
folder=${folder-$top/crates/$name}
built=$folder/out/$name
released=$folder/out/released-$name
said=${said-bin/$name}
. "$top/release/sums.bash"

# whether the program $1 is there, and no source has changed since
is_current() {
    [ -x "$1" ] || return 1
    [ -z "$(find "$top/crates.txt" "$top/crates" "$folder" \( -name '*.rt' -o -name '*.antt' -o -name crates.txt -o -name '*.rt.txt' -o -name '*.antt.txt' \
        -o -path "$folder/crates" \) -not -path '*/out/*' -newer "$1" -print -quit)" ]
}

# unpacks the released program into the new folder $1, says once where it was proved, and puts it in its place, the file $2. It is then older than a
# source that was changed meanwhile.
unpack_release() {
    touch -- "$1/begun"
    unpacked "$name" "$1/$name" || { echo "$name: release/$name.gz is not the program that release/SUMS names" >&2; return 1; }
    chmod 755 "$1/$name" && "$1/$name" ${tried_with---version} >/dev/null 2>&1 || { echo "$name: the program of release/ does not run here" >&2; return 1; }
    if ! is_of_these_sources "$name"; then
        echo "$name: this is the program of release/, proved elsewhere with $(recorded kit), and not from the sources here" >&2
    elif [ -z "$(find "$top/crates" "$top/simulator/out" -maxdepth 3 -name 'released-*' -type f -print -quit 2>/dev/null)" ]; then
        echo "$name: this program was proved elsewhere, from these sources with $(recorded kit); $said --build-only proves it here" >&2
    fi
    touch -r "$1/begun" -- "$1/$name" && mv -f -- "$1/$name" "$2"
}

# take_release FILE: whether the released program could be put there
take_release() {
    local room status
    [ -f "$top/release/SUMS" ] && [ -f "$top/release/$name.gz" ] && [ "$(uname -m)" = x86_64 ] || return 1
    mkdir -p "$folder/out" && room=$(mktemp -d "$folder/out/unpacking.XXXXXX") || return 1
    unpack_release "$room" "$1"
    status=$?
    rm -rf -- "$room"
    return "$status"
}

# whether the released program is one of these sources, and is there
has_release() {
    is_current "$released" || { is_of_these_sources "$name" && take_release "$released"; }
}

# the program of release/, whatever the sources are: it is taken again where release/ has another one
take_any_release() {
    released=$folder/out/released-anyway-$name
    [ -x "$released" ] && [ "$(sum_of "$released")" = "$(recorded "$name")" ] && return 0
    [ -f "$top/release/$name.gz" ] || echo "$name: release/ has no such program" >&2
    take_release "$released"
}

# the lines of crates.txt of the program and of each crate that it stands on
needed() {
    awk -v program="$name" '
        function take(crate,    words, count, i) {
            if (!(crate in line) || crate in taken) return
            taken[crate]
            print line[crate]
            count = split(line[crate], words)
            for (i = 2; i <= count; i++) take(words[i])
        }
        /^[^#]/ { crate = $1; sub(/:$/, "", crate); line[crate] = $0 }
        END { take(program) }' "$top/crates.txt" "$top/tests/program/crates" "$top/simulator/crates"
}

# makes the folder $1, a repository of what the program is proved from
copy_needed() {
    local path
    "$top/simulator/into" "$1" && needed >"$1/crates.txt" || return 1
    for path in "$1"/crates/*/; do
        grep -q "^$(basename -- "$path"):" "$1/crates.txt" || rm -rf -- "$path" || return 1
    done
}

# proves and builds the program in the new folder $1, with as many crates side by side as there are processors. The program is then older
# than a source that was changed meanwhile.
prove() {
    copy_needed "$1" && (cd -- "$1" && rt ci) && touch -c -r "$1/crates.txt" "$1/crates/$name/out/$name" &&
        mkdir -p "$folder/out" && mv -f -- "$1/crates/$name/out/$name" "$built"
}

# copies what rt ci says to the file $1, and says on a terminal how many crates are done, of the $2 that are needed
watched() {
    local line count=0
    while IFS= read -r line; do
        printf '%s\n' "$line"
        case $line in
            "rt: "*" proved" | "rt: "*" is kept: "*)
                count=$((count + 1))
                [ -t 2 ] && printf '\r%s: %d of %d crates proved' "$name" "$count" "$2" >&2
                ;;
        esac
    done >"$1"
    if [ -t 2 ] && [ "$count" != 0 ]; then
        printf '\n' >&2
    fi
}

# proves and builds the program; what was said of it is shown where that fails
build() {
    local room
    if ! command -v rt >/dev/null; then
        echo "$name: it has to be proved and built here, which takes the Rattle kit: its command rt is not on the path" >&2
        exit 1
    elif [ -x "$built" ]; then
        echo "$name: a source has changed: proving what depends on it and building, in some 2 to 90 minutes" >&2
    else
        echo "$name: the first build: proving every crate and building, in some 20 to 90 minutes on four processors" >&2
    fi
    room=$(mktemp -d) || exit 1
    trap 'rm -rf -- "$room"' EXIT
    if ! (set -o pipefail && prove "$room/repository" </dev/null 2>&1 | watched "$room/log" "$(needed | wc -l)"); then
        cat "$room/log" >&2
        exit 1
    fi
    rm -rf -- "$room"
    trap - EXIT
}

# says why nothing is started, and what can be done
refuse() {
    local what='a source was changed since the program was proved'
    [ -x "$built" ] || [ -f "$top/release/$name.gz" ] || what='this program was never proved here, and release/ has none'
    printf '%s: %s: %s --build-only proves and builds it from these sources, in some 20 to 90 minutes' "$name" "$what" "$said" >&2
    [ ! -f "$top/release/$name.gz" ] || printf '; %s --released COMMAND .. starts the one of release/' "$said" >&2
    printf '\n' >&2
    exit 1
}

program=$built
case ${1-} in
    --build-only)
        is_current "$built" || build
        exit 0
        ;;
    --released)
        shift
        take_any_release || exit 1
        program=$released
        ;;
    *)
        if ! is_current "$built"; then
            has_release || refuse
            program=$released
        fi
        ;;
esac
if [ "${1-}" = --program ]; then
    printf '%s\n' "$program" && exit 0
fi
exec "$program" "$@"
