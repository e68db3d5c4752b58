# Completion of the words of quorumd, quorumctl and the scripts beside them for fish. Source this file; a package has it in
# /usr/share/fish/vendor_completions.d by the name of each program. Written by completions/make.

# __quorumd_takes PROGRAM [COMMAND]: what it takes: an option is NAME/ACTION/EXCLUDED../VALUE
function __quorumd_takes
    set -g __quorumd_commands
    set -g __quorumd_operands
    set -g __quorumd_options
    switch "$argv"
        case quorumd
            set -g __quorumd_commands 'count	which of several views has the majority' 'replay	what a cluster does, event by event' 'status	how each node stands after a schedule' 'soak	what so many events, drawn from a seed, come to' 'create	makes the disk image of a cluster' 'dump	the header of an image' 'list	the nodes of an image, with their messages' 'message	leaves a message to a node' 'node	runs a node of the cluster' 'migrate	brings an image of version 1 to version 2' 'replay3	what a cluster does on three images, event by event' 'node3	runs a node of the cluster on three images' 'replay-arbiter	what a cluster does beside an arbiter, event by event' 'node-logged	the same as node, with a line for each of its calls' 'audit	whether the record of a node is a run of it' 'node3-logged	the same as node3, with a line for each of its calls' 'arbiter	answers the nodes of the cluster, as its quorum device' 'help	the names of the commands'
            set -g __quorumd_options --links/file/--links/CONF --key/file//FILE --open//--open/ --seal-meaning//--seal-meaning/ --halt/file/--halt/FILE --status/file/--status/FILE --leave-file/file/--leave-file/FILE --standing-file/file/--standing-file/FILE --group/file/--group/FILE --blank//--blank/ --anew//--anew/
        case 'quorumd status'
            set -g __quorumd_options '--form/words text json/--form/text|json'
        case 'quorumd soak'
            set -g __quorumd_operands none none
        case 'quorumd create'
            set -g __quorumd_options --image/image/--image/PATH '--timing/words 5000,10000,1000,2000,1000/--timing/W,M,L,R,S'
        case 'quorumd dump'
            set -g __quorumd_options --image/image/--image/PATH
        case 'quorumd list'
            set -g __quorumd_options --image/image/--image/PATH
        case 'quorumd message'
            set -g __quorumd_options --image/image/--image/PATH --id/none/--id/1..4294967295 '--kind/words clear test reset off exit crashdump/--kind/clear|test|reset|off|exit|crashdump'
        case 'quorumd node'
            set -g __quorumd_options --id/none/--id/1..4294967295 --image/image/--image/PATH --watchdog/file/--watchdog/PATH --resource/file/--resource/PATH --port/none/--port/1024..65000 --turns/none/--turns/1..1000000000 --leave/none/--leave/1..1000000000 '--start-mode/words 0 1/--start-mode/0..1'
        case 'quorumd migrate'
            set -g __quorumd_options --image/image/--image/PATH
        case 'quorumd node3'
            set -g __quorumd_options --id/none/--id/1..4294967295 --image/image/--image/P1,P2,P3 --watchdog/file/--watchdog/PATH --resource/file/--resource/PATH --port/none/--port/1024..65000 --turns/none/--turns/1..1000000000 --leave/none/--leave/1..1000000000 '--start-mode/words 0 1/--start-mode/0..1'
        case 'quorumd node-logged'
            set -g __quorumd_options --id/none/--id/1..4294967295 --image/image/--image/PATH --watchdog/file/--watchdog/PATH --resource/file/--resource/PATH --port/none/--port/1024..65000 --turns/none/--turns/1..1000000000 --leave/none/--leave/1..1000000000 '--start-mode/words 0 1/--start-mode/0..1'
        case 'quorumd audit'
            set -g __quorumd_options --id/none/--id/1..4294967295 --turns/none/--turns/1..1000000000 --leave/none/--leave/1..1000000000 '--start-mode/words 0 1/--start-mode/0..1' '--images/words 1 3/--images/1|3' --polls/none/--polls/1..3600000
        case 'quorumd node3-logged'
            set -g __quorumd_options --id/none/--id/1..4294967295 --image/image/--image/P1,P2,P3 --watchdog/file/--watchdog/PATH --resource/file/--resource/PATH --port/none/--port/1024..65000 --turns/none/--turns/1..1000000000 --leave/none/--leave/1..1000000000 '--start-mode/words 0 1/--start-mode/0..1'
        case 'quorumd arbiter'
            set -g __quorumd_options --port/none/--port/1024..65000 --turns/none/--turns/1..9223372036854775808
        case quorumctl
            set -g __quorumd_commands 'settings	what is read of a corosync.conf, and what of it is risky or wrong' 'timing	the least safe msgwait for these times, and how long a take-over takes on which disk' 'watchdog	what the kernel says of a watchdog, and whether a node may arm it' 'check	what is wrong with an image, and whether it fits a corosync.conf' 'list	the nodes of an image, with their messages' 'wait	returns when the message to a node was read, or msgwait has passed' 'status	what the status files of the nodes of this host come to; without FILE those in /run/quorumd' 'history	what the journals of the nodes tell, in the order of time' 'standby	the node of this host never holds the resource, from now on and after each boot' 'unstandby	it may hold it again' 'fit	it may hold it again, after a start that failed for good' 'move	the resource moves to the node of this host; with --off it is asked for no more' 'group	what is to be done to the resources of a host, event by event, for its supervisor'
        case 'quorumctl timing'
            set -g __quorumd_options --watchdog/none/--watchdog/1..3600000 --loop/none/--loop/1..3600000 --read-limit/none/--read-limit/1..3600000 --feed-delay/none/--feed-delay/1..3600000 --disk/none/--disk/1..3600000
        case 'quorumctl watchdog'
            set -g __quorumd_operands file
            set -g __quorumd_options --watchdog/none/--watchdog/1..3600000 --sys/folder/--sys/FOLDER
        case 'quorumctl check'
            set -g __quorumd_options --image/image/--image/PATH --json//--json/
        case 'quorumctl list'
            set -g __quorumd_options --image/image/--image/PATH --json//--json/
        case 'quorumctl wait'
            set -g __quorumd_options --image/image/--image/PATH --id/none/--id/1..4294967295
        case 'quorumctl status'
            set -g __quorumd_operands 'file*'
            set -g __quorumd_options '--json//--json --prometheus --watch/' '--prometheus//--prometheus --json --watch/' '--watch//--watch --json --prometheus/' --image/image/--image/PATH
        case 'quorumctl history'
            set -g __quorumd_operands 'file*'
        case 'quorumctl standby'
            set -g __quorumd_options --node/none/--node/NODE --yes//--yes/
        case 'quorumctl unstandby'
            set -g __quorumd_options --node/none/--node/NODE
        case 'quorumctl fit'
            set -g __quorumd_options --node/none/--node/NODE
        case 'quorumctl move'
            set -g __quorumd_options --node/none/--node/NODE '--yes//--yes --off/' '--off//--off --yes/'
        case quorumd-setup
            set -g __quorumd_operands file
            set -g __quorumd_options '--image/image/--image --arbiter/IMAGE[,IMAGE,IMAGE]' '--arbiter//--arbiter --image/' '--key/file/--key --no-key/FILE' '--no-key//--no-key --key/' --id/none/--id/N --watchdog/file/--watchdog/DEVICE --port/none/--port/Q --create//--create/
        case quorumd-acceptance
            set -g __quorumd_operands file none
            set -g __quorumd_options --check//--check/ --anew//--anew/ '--yes/none/--yes/TEST[,TEST..]'
        case quorumd-page
            set -g __quorumd_operands file
            set -g __quorumd_options --every/none/--every/SECONDS --status/file//FILE --journal/file//FILE
        case quorumd-collect
            set -g __quorumd_operands file
            set -g __quorumd_options --since/none/--since/TIME --until/none/--until/TIME
        case quorumd-resource
            set -g __quorumd_commands 'run	looks after the resources of this host, for systemd' 'status	how the resources stand' 'check	whether the file of the resources is well-formed' 'move	moves the resources to another node' 'maintenance	on: nothing is started, and no failure counts'
        case 'quorumd-resource maintenance'
            set -g __quorumd_operands 'words on off'
        case story
            set -g __quorumd_operands file
            set -g __quorumd_options --keep/file/--keep/FILE
        case timeline
            set -g __quorumd_operands file
            set -g __quorumd_options --title/none/--title/TITLE '--three-images//--three-images --arbiter --journal --record --id --settings/' '--arbiter//--arbiter --three-images --journal --record --id --settings/' '--journal//--journal --three-images --arbiter --record --id --settings/' '--record//--record --three-images --arbiter --journal/' '--id/none/--id --three-images --arbiter --journal/ID' '--settings/file/--settings --three-images --arbiter --journal/CONF' --events/none/--events/FIRST..LAST
        case scenario
            set -g __quorumd_operands folder
        case storm
            set -g __quorumd_operands folder none none
        case campaign
            set -g __quorumd_operands none none
            set -g __quorumd_options '--only/none/--only/KIND[,KIND..]' --resume/file/--resume/FILE --story/none/--story/SEED
        case soak-nodes
            set -g __quorumd_operands none none none none none none none none
            set -g __quorumd_options --written/folder/--written/FOLDER
    end
end

# __quorumd_do ACTION: offers what an action says
function __quorumd_do --argument-names action
    switch $action
        case file
            __fish_complete_path (commandline -ct)
        case folder
            __fish_complete_directories (commandline -ct)
        case image
            __fish_complete_path (commandline -ct)
            printf '%s\n' nbd: etcd:
        case 'words *'
            string split ' ' -- (string replace 'words ' '' -- $action)
    end
end

# __quorumd_left: offers the options that may still stand behind those that were used
function __quorumd_left
    for option in $__quorumd_options
        set -l parts (string split / -- $option)
        set -l may_stand yes
        for one in (string split ' ' -- $parts[3])
            contains -- $one $__quorumd_used; and set may_stand no
        end
        test $may_stand = yes; and printf '%s\t%s\n' $parts[1] "$parts[4]"
    end
end

# __quorumd_step PROGRAM WORD: one of the words before the present one
function __quorumd_step --argument-names program word
    if test -n "$__quorumd_waits"
        set -g __quorumd_waits
        return
    end
    for option in $__quorumd_options
        set -l parts (string split / -- $option)
        if test $parts[1] = "$word"
            set -ga __quorumd_used $word
            set -g __quorumd_waits $parts[2]
            return
        end
    end
    if set -q __quorumd_commands[1]
        __quorumd_takes $program $word
    else if set -q __quorumd_operands[1]; and not string match -q '*\*' -- $__quorumd_operands[1]
        set -e __quorumd_operands[1]
    end
end

# what is offered for the present word
function __quorumd_offers
    set -l words (commandline -opc)
    set -l word (commandline -ct)
    set -l program (string replace -r '.*/' '' -- $words[1])
    set -g __quorumd_used
    set -g __quorumd_waits
    __quorumd_takes $program
    for before in $words[2..-1]
        __quorumd_step $program $before
    end
    if test -n "$__quorumd_waits"
        __quorumd_do $__quorumd_waits
    else if string match -q -- '-*' $word
        __quorumd_left
    else if set -q __quorumd_commands[1]
        printf '%s\n' $__quorumd_commands
    else if set -q __quorumd_operands[1]
        __quorumd_do (string trim --right --chars '*' -- $__quorumd_operands[1])
    else
        __quorumd_left
    end
end

for program in quorumd quorumctl quorumd-setup quorumd-acceptance quorumd-page quorumd-collect quorumd-resource story timeline scenario storm campaign soak-nodes
    complete -c $program -f -a '(__quorumd_offers)'
end
