# For simulator/into and simulator/from: the crates of this folder and of tests/program, which are proved at no merge, and the same in the repository
# $folder that simulator/into makes.
lines=("$top/tests/program/crates" "$top/simulator/crates")
crates=$(cat -- "${lines[@]}" | sed -n 's/^\([a-z_]*\):.*/\1/p')

# home_of CRATE: the folder of a crate of these
home_of() {
    local file
    for file in "${lines[@]}"; do
        ! grep -q "^$1:" "$file" || printf '%s/%s\n' "${file%/crates}" "$1"
    done
}

# takes the folder that is the one word $@, or says what is wrong with the words, and the usage
take_folder() {
    if [ "$*" = --help ]; then
        sed -n '2,/^[^#]/s/^# \{0,1\}//p' "$0"
        exit 0
    fi
    [ $# = 1 ] || wrong_words 'one folder'
    folder=$1
    case $folder in
        -*) wrong_words "$folder is no folder" ;;
    esac
    [ ! -e "$folder" ] || [ -d "$folder" ] || wrong_words "$folder is no folder"
}

wrong_words() {
    printf '%s: %s\nusage: %s\n' "${0##*/}" "$1" "$(sed -n '2s/^# //p' "$0")" >&2
    exit 2
}

# the sum of the files of these crates in $folder, by their paths and contents
sum_of_copies() {
    (cd -- "$folder/crates" && find $crates -name out -prune -o -type f -print0 | LC_ALL=C sort -z | xargs -0 sha256sum -b | sha256sum -b)
}

# copy_crate FROM TO: the files of a crate, without what rt keeps in out/
copy_crate() {
    local part
    mkdir -p -- "$2"
    find "$2" -mindepth 1 -maxdepth 1 ! -name out -exec rm -rf -- {} +
    for part in "$1"/*; do
        [ "${part##*/}" = out ] || cp -R -- "$part" "$2"
    done
}
