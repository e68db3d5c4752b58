# Completion of the words of quorumd, quorumctl and the scripts beside them for bash 4 or later. Source this file; a package has it in
# /usr/share/bash-completion/completions by the name of each program. Written by completions/make.

# _quorumd_takes PROGRAM [COMMAND]: what it takes, in `commands`, `operands` and `options`: an option is NAME/ACTION/EXCLUDED..
_quorumd_takes() {
    commands=() operands=() options=()
    case $* in
    quorumd)
        commands=(count replay status soak create dump list message node migrate replay3 node3 replay-arbiter node-logged audit node3-logged arbiter help)
        options=(--links/file/--links --key/file/ --open//--open --seal-meaning//--seal-meaning --halt/file/--halt --status/file/--status --leave-file/file/--leave-file --standing-file/file/--standing-file --group/file/--group --blank//--blank --anew//--anew)
        ;;
    'quorumd status')
        options=('--form/words text json/--form')
        ;;
    'quorumd soak')
        operands=(none none)
        ;;
    'quorumd create')
        options=(--image/image/--image '--timing/words 5000,10000,1000,2000,1000/--timing')
        ;;
    'quorumd dump')
        options=(--image/image/--image)
        ;;
    'quorumd list')
        options=(--image/image/--image)
        ;;
    'quorumd message')
        options=(--image/image/--image --id/none/--id '--kind/words clear test reset off exit crashdump/--kind')
        ;;
    'quorumd node')
        options=(--id/none/--id --image/image/--image --watchdog/file/--watchdog --resource/file/--resource --port/none/--port --turns/none/--turns --leave/none/--leave '--start-mode/words 0 1/--start-mode')
        ;;
    'quorumd migrate')
        options=(--image/image/--image)
        ;;
    'quorumd node3')
        options=(--id/none/--id --image/image/--image --watchdog/file/--watchdog --resource/file/--resource --port/none/--port --turns/none/--turns --leave/none/--leave '--start-mode/words 0 1/--start-mode')
        ;;
    'quorumd node-logged')
        options=(--id/none/--id --image/image/--image --watchdog/file/--watchdog --resource/file/--resource --port/none/--port --turns/none/--turns --leave/none/--leave '--start-mode/words 0 1/--start-mode')
        ;;
    'quorumd audit')
        options=(--id/none/--id --turns/none/--turns --leave/none/--leave '--start-mode/words 0 1/--start-mode' '--images/words 1 3/--images' --polls/none/--polls)
        ;;
    'quorumd node3-logged')
        options=(--id/none/--id --image/image/--image --watchdog/file/--watchdog --resource/file/--resource --port/none/--port --turns/none/--turns --leave/none/--leave '--start-mode/words 0 1/--start-mode')
        ;;
    'quorumd arbiter')
        options=(--port/none/--port --turns/none/--turns)
        ;;
    quorumctl)
        commands=(settings timing watchdog check list wait status history standby unstandby fit move group)
        ;;
    'quorumctl timing')
        options=(--watchdog/none/--watchdog --loop/none/--loop --read-limit/none/--read-limit --feed-delay/none/--feed-delay --disk/none/--disk)
        ;;
    'quorumctl watchdog')
        operands=(file)
        options=(--watchdog/none/--watchdog --sys/folder/--sys)
        ;;
    'quorumctl check')
        options=(--image/image/--image --json//--json)
        ;;
    'quorumctl list')
        options=(--image/image/--image --json//--json)
        ;;
    'quorumctl wait')
        options=(--image/image/--image --id/none/--id)
        ;;
    'quorumctl status')
        operands=('file*')
        options=('--json//--json --prometheus --watch' '--prometheus//--prometheus --json --watch' '--watch//--watch --json --prometheus' --image/image/--image)
        ;;
    'quorumctl history')
        operands=('file*')
        ;;
    'quorumctl standby')
        options=(--node/none/--node --yes//--yes)
        ;;
    'quorumctl unstandby')
        options=(--node/none/--node)
        ;;
    'quorumctl fit')
        options=(--node/none/--node)
        ;;
    'quorumctl move')
        options=(--node/none/--node '--yes//--yes --off' '--off//--off --yes')
        ;;
    quorumd-setup)
        operands=(file)
        options=('--image/image/--image --arbiter' '--arbiter//--arbiter --image' '--key/file/--key --no-key' '--no-key//--no-key --key' --id/none/--id --watchdog/file/--watchdog --port/none/--port --create//--create)
        ;;
    quorumd-acceptance)
        operands=(file none)
        options=(--check//--check --anew//--anew --yes/none/--yes)
        ;;
    quorumd-page)
        operands=(file)
        options=(--every/none/--every --status/file/ --journal/file/)
        ;;
    quorumd-collect)
        operands=(file)
        options=(--since/none/--since --until/none/--until)
        ;;
    quorumd-resource)
        commands=(run status check move maintenance)
        ;;
    'quorumd-resource maintenance')
        operands=('words on off')
        ;;
    story)
        operands=(file)
        options=(--keep/file/--keep)
        ;;
    timeline)
        operands=(file)
        options=(--title/none/--title '--three-images//--three-images --arbiter --journal --record --id --settings' '--arbiter//--arbiter --three-images --journal --record --id --settings' '--journal//--journal --three-images --arbiter --record --id --settings' '--record//--record --three-images --arbiter --journal' '--id/none/--id --three-images --arbiter --journal' '--settings/file/--settings --three-images --arbiter --journal' --events/none/--events)
        ;;
    scenario)
        operands=(folder)
        ;;
    storm)
        operands=(folder none none)
        ;;
    campaign)
        operands=(none none)
        options=(--only/none/--only --resume/file/--resume --story/none/--story)
        ;;
    soak-nodes)
        operands=(none none none none none none none none)
        options=(--written/folder/--written)
        ;;
    esac
}

# _quorumd_offer WORD..: offers those of the words that begin as the present one
_quorumd_offer() {
    local offered
    for offered; do
        if [[ $offered == "$word"* ]]; then
            COMPREPLY+=("$offered")
        fi
    done
}

# _quorumd_files [d]: offers names of files, or of folders alone
_quorumd_files() {
    mapfile -t COMPREPLY < <(compgen "-${1-f}" -- "$word")
    # names are quoted, and folders get a slash; outside of a completion this fails
    compopt -o filenames 2> /dev/null || true
}

# _quorumd_do ACTION: offers what an action says
_quorumd_do() {
    case $1 in
    file) _quorumd_files ;;
    folder) _quorumd_files d ;;
    image)
        _quorumd_files
        _quorumd_offer nbd: etcd:
        [[ ${COMPREPLY[*]} != @(nbd|etcd): ]] || compopt -o nospace 2> /dev/null || true
        ;;
    'words '*)
        # shellcheck disable=SC2086
        _quorumd_offer ${1#words }
        ;;
    esac
}

# _quorumd_left: offers the options that may still stand behind those in `used`
_quorumd_left() {
    local option name excluded one may_stand
    for option in "${options[@]}"; do
        IFS=/ read -r name _ excluded <<< "$option"
        may_stand=yes
        for one in $excluded; do
            [[ " ${used[*]} " != *" $one "* ]] || may_stand=no
        done
        [[ $may_stand == no ]] || _quorumd_offer "$name"
    done
}

# _quorumd_step WORD: one of the words before the present one
_quorumd_step() {
    local option name action
    if [[ $waits ]]; then
        waits=''
        return
    fi
    for option in "${options[@]}"; do
        IFS=/ read -r name action _ <<< "$option"
        if [[ $name == "$1" ]]; then
            used+=("$name") waits=$action
            return
        fi
    done
    if ((${#commands[@]})); then
        _quorumd_takes "$program" "$1"
    elif [[ ${operands[0]-} != *'*' ]]; then
        operands=("${operands[@]:1}")
    fi
}

_quorumd() {
    local IFS=$' \t\n' program=${COMP_WORDS[0]##*/} word=${COMP_WORDS[COMP_CWORD]} waits='' at commands operands options used=()
    COMPREPLY=()
    _quorumd_takes "$program"
    for ((at = 1; at < COMP_CWORD; at++)); do
        case ${COMP_WORDS[at]} in
        '<' | '>' | '>>' | '>|')
            if ((at == COMP_CWORD - 1)); then
                _quorumd_files
                return
            fi
            ((at += 1))
            ;;
        # bash takes an address apart at its colons
        :) ((at += 1)) ;;
        *) _quorumd_step "${COMP_WORDS[at]}" ;;
        esac
    done
    if ((at > COMP_CWORD)); then
        return
    elif [[ $waits ]]; then
        _quorumd_do "$waits"
    elif [[ $word == -* ]]; then
        _quorumd_left
    elif ((${#commands[@]})); then
        _quorumd_offer "${commands[@]}"
    elif [[ ${operands[0]-} == @(file|folder|words)* ]]; then
        _quorumd_do "${operands[0]%'*'}"
    elif ! ((${#operands[@]})); then
        _quorumd_left
    fi
}

complete -F _quorumd quorumd quorumctl quorumd-setup quorumd-acceptance quorumd-page quorumd-collect quorumd-resource story timeline scenario storm campaign soak-nodes
