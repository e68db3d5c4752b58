# Words that are no command: status 2 and the fault line, whatever the input is, and on standard error one line that names the first word
# which was not taken.
. "$TOP/tests/expect.sh"

while read -r words; do
    # shellcheck disable=SC2086
    expect 2 'fault Usage\n' $words < "$TOP/examples/one-node.conf"
    same "$(wc -l < .errors)" 1
    grep -qF ' is ' .errors
done <<'END'
counts
COUNT
count x
create
replay --image d
create --image
create --image d --image d
create --image d --timing 0,10000,1000,2000,1000
create --image d --timing 5000,10000,1000,2000
create --image d --timing 5000,10000,1000,2000,1000,1
create --image d --timing 5000,3600001,1000,2000,1000
dump d
dump --image d --id 1
list --images d
message --image d --id 1
message --image d --id 0 --kind off
message --image d --id 4294967296 --kind off
message --image d --id 1 --kind empty
node
node --id 1 --image d --watchdog w --resource r --port 7000
node --id 1 --image d --watchdog w --resource r --turns 9
node --id 1 --image d --watchdog w --port 7000 --turns 9
node --id 1 --image d --resource r --port 7000 --turns 9
node --id 1 --watchdog w --resource r --port 7000 --turns 9
node --image d --watchdog w --resource r --port 7000 --turns 9
node --id 0 --image d --watchdog w --resource r --port 7000 --turns 9
node --id 4294967296 --image d --watchdog w --resource r --port 7000 --turns 9
node --id 1 --image d --watchdog w --resource r --port 1023 --turns 9
node --id 1 --image d --watchdog w --resource r --port 65001 --turns 9
node --id 1 --image d --watchdog w --resource r --port 7000 --turns 0
node --id 1 --image d --watchdog w --resource r --port 7000 --turns 1000000001
node --id 1 --image d --watchdog w --resource r --port 7000 --turns 9 --leave 0
node --id 1 --image d --watchdog w --resource r --port 7000 --turns 9 --leave 1000000001
node --id 1 --image d --watchdog w --resource r --port 7000 --turns 9 --start-mode 2
node --id 1 --image d --watchdog w --resource r --port 7000 --turns 9 --start-mode clean
node --id 1 --image d --watchdog w --resource r --port 7000 --turns 9 --turns 9
node --id 1 --image d --watchdog w --resource r --port 7000 --turns 9 --timing 5000,10000,1000,2000,1000
node --id 1 --image d --watchdog w --resource r --port 7000 --turns 9 --leave
node3
node3 --id 1 --image d --watchdog w --resource r --port 7000 --turns 9
node3 --id 1 --image d,e --watchdog w --resource r --port 7000 --turns 9
node3 --id 1 --image d,e,f,g --watchdog w --resource r --port 7000 --turns 9
node3 --id 1 --image d,e,f, --watchdog w --resource r --port 7000 --turns 9
node3 --id 1 --image d,d,e --watchdog w --resource r --port 7000 --turns 9
node3 --id 1 --image d,e,d --watchdog w --resource r --port 7000 --turns 9
node3 --id 1 --image d,e,e --watchdog w --resource r --port 7000 --turns 9
node3 --id 1 --image ,,d --watchdog w --resource r --port 7000 --turns 9
node3 --id 1 --image d --image e --image f --watchdog w --resource r --port 7000 --turns 9
node3 --id 1 --image d,e,f --watchdog w --resource r --port 7000
node3 --id 1 --image d,e,f --watchdog w --resource r --port 7000 --turns 0
node-logged
node-logged --id 1 --turns 9
node-logged --id 1 --image d --watchdog w --resource r --port 7000 --turns 0
node-logged --id 1 --image d --watchdog w --resource r --port 7000 --turns 9 --turns 9
audit
audit --id 1
audit --turns 9
audit --id 0 --turns 9
audit --id 4294967296 --turns 9
audit --id 1 --turns 0
audit --id 1 --turns 1000000001
audit --id 1 --turns 9 --leave 0
audit --id 1 --turns 9 --leave 1000000001
audit --id 1 --turns 9 --start-mode 2
audit --id 1 --turns 9 --polls 0
audit --id 1 --turns 9 --polls 3600001
audit --id 1 --turns 9 --image d
audit --id 1 --turns 9 --id 1
migrate
migrate d
migrate --image d --id 1
replay3 x
replay3 --form text
replay-arbiter x
replay-arbiter --form text
status text
status --form text --form text
status --form xml
soak 1
soak 1 0
soak 1 200001
help me
END
# refused 'WHAT' WORD..: what the line on standard error says after the program's name
refused() {
    local what=$1
    shift
    expect 2 'fault Usage\n' "$@" < /dev/null
    same "$(cat .errors)" "quorumd: $what"
}
create='create --image PATH [--timing W,M,L,R,S]'
message='message --image PATH --id 1..4294967295 --kind clear|test|reset|off|exit|crashdump'
commands=$("$QUORUMD" --help | sed -n -e 's/^quorumd \([a-z][a-z0-9-]*\)\( .*\)*$/\1/p' -e 's/^    /: /p' | paste -sd '\0\n' | sed 's/^/    /')
refused "there is no command; the commands are
$commands
quorumd COMMAND --help has the words of one and an example, quorumd --help those of all"
refused '"" is no command; quorumd --help lists the commands' ''
refused '"counts" is no command; did you mean count?' counts
refused '"cuont" is no command; did you mean count?' cuont
refused '"mig" is no command; did you mean migrate?' mig
refused '"history" is no command; it is a command of quorumctl' history
refused '"failover" is no command; quorumd --help lists the commands' failover
refused '"--image" is no command; a command stands before its options' --image d list
refused '"--lnks" is no command; did you mean --links?' --lnks conf list
refused '"x\ny" is no command; quorumd --help lists the commands' $'x\ny'
refused '"x" is not taken; usage: count' count x
refused "--image is missing; usage: $create" create
refused "a value is missing at the end, PATH; usage: $create" create --image
refused "\"--image\" is not taken; usage: $create" create --image d --image e
refused "\"--imag\" is not taken; usage: $create; did you mean --image?" create --timing 1,2,3,4,5 --imag d
refused "\"5000,10000,1000,2000\" is not taken; usage: $create" create --image d --timing 5000,10000,1000,2000
refused "\"empty\" is not taken; usage: $message" message --image d --id 1 --kind empty
refused "\"0\" is not taken; usage: $message" message --kind off --id 0 --image d
refused "--id is missing; usage: $message" message --kind off --image --id
node3='node3 --id 1..4294967295 --image P1,P2,P3 --watchdog PATH --resource PATH --port 1024..65000 --turns 1..1000000000 [--leave 1..1000000000] [--start-mode 0..1]'
refused "\"d,e\" is not taken; usage: $node3" node3 --id 1 --image d,e --watchdog w
refused "\"d,e,d\" is not taken; usage: $node3" node3 --id 1 --image d,e,d --watchdog w
refused "\"d,e,f,g\" is not taken; usage: $node3" node3 --image d,e,f,g
refused "--watchdog is missing; usage: $node3" node3 --id 1 --image d,e,f
refused '"xml" is not taken; usage: status [--form text|json]' status --form xml
refused '"200001" is not taken; usage: soak SEED:0.. EVENTS:1..200000' soak 1 200001
refused 'a word is missing; usage: soak SEED:0.. EVENTS:1..200000' soak 1
refused '"me" is not taken; usage: help' help me
refused '"--help" is not taken; usage: count' count --help x
refused "\"--key\" is not taken; usage: $create; it stands before the command" create --key k --image d
refused "\"rset\" is not taken; usage: $message; did you mean reset?" message --image d --id 1 --kind rset
expect 2 'fault Usage\n' < /dev/null
expect 2 'fault Usage\n' '' < /dev/null
same "$(ls)" ''
