# For bin/built.bash, release/make and release/check: the sums of release/SUMS, of the repository $top.

# the programs that are released: the last one is that of bench/soak-nodes and bench/campaign
programs='quorumd quorumctl qn_soak_nodes'

# the sum of what the programs are proved from: crates.txt, HANDLES and the sources in crates/, each file by its path and its own sum
sources_sum() {
    (cd -- "$top" && find crates.txt HANDLES crates -name out -prune -o -type f \( -name '*.rt' -o -name '*.antt' -o -path crates.txt -o -path HANDLES \) -print0 |
        LC_ALL=C sort -z | xargs -0 sha256sum -b | sum_of -)
}

# the same of what qn_soak_nodes is proved from besides
simulator_sum() {
    (cd -- "$top" && find simulator -name out -prune -o -type f \( -name '*.rt.txt' -o -name '*.antt.txt' -o -path simulator/crates \) -print0 |
        LC_ALL=C sort -z | xargs -0 sha256sum -b | sum_of -)
}

# whether the released program $1 was proved from these sources
is_of_these_sources() {
    [ "$(sources_sum)" = "$(recorded sources)" ] || return 1
    [ "$1" != qn_soak_nodes ] || [ "$(simulator_sum)" = "$(recorded simulator)" ]
}

# the SHA-256 of a file, or of standard input
sum_of() {
    sha256sum -b -- "$1" | cut -d ' ' -f 1
}

# what release/SUMS says behind the word $1; nothing where it has no such line, or is not there
recorded() {
    sed -n "s/^$1 //p" "$top/release/SUMS" 2>/dev/null
}

# whether release/ has the program $1 that release/SUMS names, which is written to the file $2
unpacked() {
    gzip -dc -- "$top/release/$1.gz" 2>/dev/null >"$2" && [ "$(sum_of "$2")" = "$(recorded "$1")" ]
}

# the script that starts the program $1
script_of() {
    case $1 in
        qn_soak_nodes) printf '%s\n' "$top/bench/$1" ;;
        *) printf '%s\n' "$top/bin/$1" ;;
    esac
}

# where the program $1 stands once it was proved and built here
built_of() {
    case $1 in
        qn_soak_nodes) printf '%s\n' "$top/simulator/out/$1" ;;
        *) printf '%s\n' "$top/crates/$1/out/$1" ;;
    esac
}
