# The completions of bash, zsh and fish, each in a shell of its own: what is offered after which words. They are what completions/make writes from its
# table, each line of which is what the program or script itself says that it takes.
. "$TOP/tests/expect.sh"

mkdir written
"$TOP/completions/make" written
for file in quorumd.bash _quorumd quorumd.fish; do
    cmp "written/$file" "$TOP/completions/$file"
done

"$TOP/completions/make" --table > table
# taken PROGRAM: its lines of the table
taken() {
    grep "^$1 " table
}

# the help of the two programs has these lines, each with what it reads behind it
for program in "$QUORUMD" "$QUORUMCTL"; do
    name=$(basename "$program")
    "$program" --help | sed -n -e 's/ < .*//' -e '/--help/d' -e "/^$name [0-9]/d" -e "/^$name \\[/p" -e "/^$name [a-z]/{p;n;p}" | sort > said
    sed -n -e "/^$name \\[/p" -e "/^$name [a-z]/{p;n;p}" table | sort | cmp said -
done

# a script says them of words that it does not take
scripts=(packaging/quorumd-setup contrib/quorumd-acceptance contrib/quorumd-page contrib/quorumd-collect contrib/quorumd-resource bin/story bin/timeline examples/live/scenario examples/live/storm bench/campaign bench/soak-nodes)
for script in "${scripts[@]}"; do
    status=0
    "$TOP/$script" --no-such-word > said 2>&1 || status=$?
    same "$script $status $(sed -n '/^usage: /,$p' said | sed -e 's/^usage: //' -e 's/^ *//' -e "s|^$script|$(basename "$script")|")" \
        "$script 2 $(taken "$(basename "$script")")"
done
same "$(grep -v '^ ' table | cut -d ' ' -f 1 | grep . | sort -u | xargs)" "$(printf '%s\n' quorumd quorumctl "${scripts[@]##*/}" | sort | xargs)"

# offers WANTED WORD..: what is offered for the last of these words after the program's name, whatever the shell's IFS
cat > offers.bash <<'END'
[ "$2" = usual ] || IFS=$2
source "$1"
shift 2
COMP_WORDS=(quorumd "$@")
COMP_CWORD=$#
COMP_LINE="${COMP_WORDS[*]}"
COMP_POINT=${#COMP_LINE}
_quorumd quorumd "${COMP_WORDS[COMP_CWORD]}" "${COMP_WORDS[COMP_CWORD - 1]}"
printf '%s\n' "${COMPREPLY[@]}"
END
offers() {
    local wanted=$1 separators
    shift
    for separators in usual $'\n' ''; do
        same "quorumd $*: $(bash offers.bash "$TOP/completions/quorumd.bash" "$separators" "$@" | xargs)" "quorumd $*: $wanted"
    done
}

for name in quorumd quorumctl quorumd-setup quorumd-acceptance quorumd-page quorumd-collect quorumd-resource story timeline; do
    same "$(bash -c 'source "$1" && complete -p "$2"' - "$TOP/completions/quorumd.bash" "$name")" "complete -F _quorumd $name"
done

# commands
commands='count replay status soak create dump list message node migrate replay3 node3 replay-arbiter node-logged audit node3-logged arbiter help'
offers "$commands" ''
offers 'count create' c
offers 'status soak' s
offers 'replay replay3 replay-arbiter' r
offers status sta
offers '' x
expect 0 "commands $commands\\n" help

# the words before the command, and what follows them
offers '--links --key --open --seal-meaning --halt --status --leave-file --standing-file --group --blank --anew' -
offers '--links --leave-file' --l
offers "$commands" --open ''
offers --key --open --k
offers 'node node3 node-logged node3-logged' --status file node
offers 'status soak' --links conf --key key s
offers --form --links conf --key key status ''
offers '--image --timing' --key one --key two create ''

# options: those of the command, and none twice
for command in count replay replay3 replay-arbiter soak help other; do
    offers '' "$command" ''
    offers '' "$command" --
done
offers --form status ''
offers --form status --f
offers '' status --i
offers '' status --form text ''
offers '--image --timing' create ''
offers --timing create --image disk ''
offers --image create --timing 5000,10000,1000,2000,1000 --
offers '' create --timing 5000,10000,1000,2000,1000 --image disk ''
offers --image dump ''
offers --image list -
offers '' list --image disk ''
offers '--image --id --kind' message ''
offers '--image --kind' message --id 2 --
offers '--id' message --kind off --image disk ''
offers '' message --kind off --image disk --id 2 ''
offers '--id --image --watchdog --resource --port --turns --leave --start-mode' node ''
offers '--image --resource --port --leave --start-mode' node --turns 9 --id 1 --watchdog dog --
offers '--leave' node --id 1 --image disk --watchdog dog --resource res --port 7000 --turns 9 --start-mode 1 --
offers '--id --image --watchdog --resource --port --turns --leave --start-mode' node3 ''
offers '--id --image --watchdog --resource --port --turns --leave --start-mode' node-logged ''
offers '--id --image --watchdog --resource --port --turns --leave --start-mode' node3-logged ''
offers '--id --turns --leave --start-mode --images --polls' audit ''
offers '--leave --start-mode --images --polls' audit --turns 9 --id 1 --
offers '--port --turns' arbiter ''
offers '--port' arbiter --turns 9 --

# a word that looks like an option can be a value; a redirection is no option
offers --id message --image --id --kind off ''
offers '--id --kind' message --image --kind ''
offers --form status '<' schedule --
offers --timing create '<' settings --image disk ''

# values
offers 'text json' status --form ''
offers json status --form j
offers '' status --form x
offers 'clear test reset off exit crashdump' message --kind ''
offers reset message --image disk --kind r
offers 5000,10000,1000,2000,1000 create --timing ''
offers 5000,10000,1000,2000,1000 create --image disk --timing 5
offers '' create --timing 6
offers '0 1' node --start-mode ''
offers '' node --port ''
offers '' message --id ''
mkdir files files/folder
touch files/disk files/disk.old files/other
offers 'files/disk files/disk.old' dump --image files/di
offers 'files/folder' create --timing 5000,10000,1000,2000,1000 --image files/f
offers 'files/other' message --id 2 --image files/o
offers 'files/other' node --id 2 --watchdog files/o
offers 'files/other' node --id 2 --resource files/o
offers '' list --image files/x
offers 'files/other' status '<' files/o
offers 'files/other' status --form json '>' files/o

# the same words in the three shells, in any order: what is offered for row N goes into NAME.N
bash_offers() {
    local words row
    for row in "${!rows[@]}"; do
        read -ra words <<< "${rows[row]}"
        [[ ${rows[row]} != *' ' ]] || words+=('')
        bash -c 'source "$1" && shift && COMP_WORDS=("$@") COMP_CWORD=$(($# - 1)) && _quorumd && printf "%s\n" "${COMPREPLY[@]}"' - \
            "$TOP/completions/quorumd.bash" "${words[@]}" > "bash.$row"
    done
}
zsh_offers() {
    local row
    for row in "${!rows[@]}"; do
        HOME=$PWD timeout 60 zsh -f "$TOP/tests/parts/offers.zsh" "$TOP/completions" "${rows[row]}" > "zsh.$row"
    done
}
fish_offers() {
    # shellcheck disable=SC2016
    HOME=$PWD timeout 60 fish --no-config -c 'source $argv[1]; for row in (seq 2 (count $argv)); complete -C $argv[$row] | cut -f 1 > fish.(math $row - 2); end' \
        "$TOP/completions/quorumd.fish" "${rows[@]}"
}
rows=() wanted=()
while IFS='>' read -r line offered; do
    rows+=("${line%;}")
    wanted+=("$offered")
done << END
quorumd ;> $commands
quorumd st;> status
quorumd --;> --links --key --open --seal-meaning --halt --status --leave-file --standing-file --group --blank --anew
quorumd --links files/other --open --key files/other --;> --key --seal-meaning --halt --status --leave-file --standing-file --group --blank --anew
quorumd --status files/other status --;> --form
quorumd audit --images ;> 1 3
quorumd message --kind off --;> --image --id
quorumd dump --image files/di;> disk disk.old
quorumctl ;> settings timing watchdog check list wait status history standby unstandby fit move group
quorumctl status --json --;> --image
quorumctl status files/;> disk disk.old folder other
quorumd-setup files/other --key files/other --;> --image --arbiter --id --watchdog --port --create
quorumd-acceptance --check --;> --anew --yes
quorumd-acceptance files/;> disk disk.old folder other
quorumd-page --status files/disk --;> --every --status --journal
quorumd-page files/;> disk disk.old folder other
quorumd-collect --since today --;> --until
quorumd-resource ;> run status check move maintenance
quorumd-resource maintenance ;> on off
/usr/share/quorumd/bin/story --;> --keep
timeline --journal --;> --events --title
timeline --record --;> --events --title --id --settings
examples/live/scenario files/;> folder
END
for shell in bash zsh fish; do
    if ! command -v "$shell" > /dev/null; then
        printf 'skipped: not installed (Debian: %s), so its completion was not tried\n' "$shell"
        continue
    fi
    "${shell}_offers"
    for row in "${!rows[@]}"; do
        same "$shell, ${rows[row]}: $(sed -e 's|/$||' -e 's|.*/||' "$shell.$row" | sort -u | xargs)" \
            "$shell, ${rows[row]}: $(tr ' ' '\n' <<< "${wanted[row]}" | sort -u | xargs)"
    done
done

# the program takes the words that are offered
{ cat "$TOP/examples/two-node.conf"; printf -- '----\ntiming 5000 10000 1000 2000 1000\n'; } > schedule
for form in text json; do
    "$QUORUMD" status --form "$form" < schedule > output
done
expect 0 'created nodes 2\n' create --image disk --timing 5000,10000,1000,2000,1000 < "$TOP/examples/two-node.conf"
for kind in clear test exit reset off crashdump; do
    expect 0 "sent $kind to 2\\n" message --image disk --id 2 --kind "$kind"
done
