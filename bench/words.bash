# For the scripts of bench: the head of a script is its usage and what it does, which --help shows, and its words are numbers.

# take_numbers MOST WORD..: ends the script with its usage and status 2 where the words are more than so many, or one is no number from 1 on
take_numbers() {
    local most=$1 word wrong=''
    shift
    if [ "$*" = --help ]; then
        sed -n '2,/^[^#]/s/^# \{0,1\}//p' "$0"
        exit 0
    fi
    [ $# -le "$most" ] || wrong="${*:most + 1:1} is one too many"
    for word; do
        [[ $word =~ ^[1-9][0-9]{0,8}$ ]] || wrong="$word is no number from 1 on"
    done
    [ -z "$wrong" ] || { printf '%s: %s\nusage: %s\n' "${0##*/}" "$wrong" "$(sed -n '2s/^# //p' "$0")" >&2; exit 2; }
}
