# The words before the command: each fault of the words and of the files that they name is one line on standard error, with status 2 and
# nothing on standard output; good ones change nothing of a command.
. "$TOP/tests/expect.sh"

commands='commands count replay status soak create dump list message node migrate replay3 node3 replay-arbiter node-logged audit node3-logged arbiter help'

# says LINE WORD..: these words are refused with this line
says() {
    local wanted=$1 status=0
    shift
    "$QUORUMD" "$@" > said 2> errors < /dev/null || status=$?
    same "$* gives $status, $(cat said errors)" "$* gives 2, quorumd: $wanted"
    same "$* writes $(wc -c < said) bytes" "$* writes 0 bytes"
}

# takes LINE WORD..: with these words the names of the commands are written, and this on standard error
takes() {
    local wanted=$1
    shift
    "$QUORUMD" "$@" > said 2> errors < /dev/null
    same "$* gives $(cat said), $(cat errors)" "$* gives $commands, $wanted"
}

# key NAME SIZE MODE: a key file
key() {
    head -c "$2" /dev/urandom > "$1"
    chmod "$3" "$1"
}
key one 128 600
key two 32 400
key three 4096 600
key four 64 600
key short 31 600
key long 4097 600
key group 128 640
key others 128 604
cp one same
chmod 600 same
mkdir folder

node() {
    printf 'node {\n nodeid: %s\n%s}\n' "$1" "${2:+ ring0_addr: $2
}"
}
conf() {
    printf 'nodelist {\n%s\n%s\n%s\n}\n' "$(node 1 192.0.2.1)" "$(node 2 "$1")" "$(node 3 192.0.2.3)"
}
conf 192.0.2.2 > conf
printf 'nodelist {\n%s\n}\n' "$(node 1 2001:db8::1)" > conf6

# the words
says '--links: given twice' --links conf --links conf --open help
says '--open: given twice' --open --open help
says '--halt: given twice' --halt a --halt b help
says '--status: given twice' --status a --status b node
says '--blank: given twice' --blank --blank create
says '--anew: given twice' --anew --open --anew create
for word in --blank --anew; do
    for command in help list migrate node 'audit --id 1 --turns 1' ''; do
        says "$word stands before create alone" $word $command
    done
done
says '--status stands before a node or an arbiter alone' --status a help
says '--status stands before a node or an arbiter alone' --status a audit --id 1 --turns 1
says '--status stands before a node or an arbiter alone' --open --status a
for path in '' "$(head -c 4091 /dev/zero | tr '\0' x)"; do
    says '--status: a path has 1 to 4090 bytes' --status "$path" node
done
says '--leave-file: given twice' --leave-file a --leave-file b node
says '--leave-file stands before a node alone' --leave-file a help
says '--standing-file: given twice' --standing-file a --standing-file b node
says '--standing-file stands before a node alone' --standing-file a help
says '--standing-file stands before a node alone' --standing-file a arbiter
says '--group: given twice' --group a --group b node
says '--group stands before a node alone' --group a help
says '--group stands before a node alone' --group a arbiter
says '--seal-meaning: given twice' --seal-meaning --links conf --seal-meaning node
for command in help create 'audit --id 1 --turns 1' ''; do
    says '--seal-meaning stands before a node or an arbiter alone' --links conf --key one --seal-meaning $command
done
for command in node node3 node-logged node3-logged arbiter; do
    for words in '' '--links conf --open' '--key one'; do
        says '--seal-meaning wants --links and --key' $words --seal-meaning $command
    done
done
says '--links wants --key or --open; --key FILE seals what the nodes say' --links conf --seal-meaning node
says '--key: more than three; leave out the oldest' --key one --key two --key three --key four help
says '--open beside --key; one of them, and a key where strangers reach the network' --open --key one help
says '--open beside --key; one of them, and a key where strangers reach the network' --key one --open help
says '--links wants --key or --open; --key FILE seals what the nodes say' --links conf help
says '--links wants --key or --open; --key FILE seals what the nodes say' --halt file --links conf
for word in --links --key --halt --status --leave-file --standing-file --group; do
    says "$word: its value is missing" "$word"
    for next in --links --key --open --seal-meaning --halt --status --leave-file --standing-file --group --blank --anew; do
        says "$word: its value is missing" "$word" "$next" conf help
    done
done

# key files
says 'none: No such file or directory (os error 2); look at the path, and whether its file system is mounted' --key none help
says 'short: 31 bytes, a key has 32 to 4096; copy that of another host' --key short help
says 'long: 4097 bytes, a key has 32 to 4096; copy that of another host' --key one --key long help
says 'group: others may read it; chmod 600 group' --key group help
says 'others: others may read it; chmod 600 others' --key others help
says 'folder: a key is a regular file' --key folder help
says 'same: the same key twice' --key one --key same help
says 'one: the same key twice' --key one --key two --key one help
says 'same: the same key twice' --key two --key one --key same help

# untaken FAULT: the settings text is at fault
untaken() {
    refused "$1; quorumctl settings < other shows its lines"
}

# the settings text
refused() {
    says "other: $1" --open --links other help
}
says 'none: No such file or directory (os error 2); look at the path, and whether its file system is mounted' --open --links none help
says 'folder: Is a directory (os error 21); name a file in it' --open --links folder help
conf '' > other
refused 'node 2 has no ring0_addr'
for name in host.example host 192.0.2 192.0.2.256 fe80::1%eth0 '[2001:db8::2]' 192.0.2.2:7400 0.0.0.0 :: 224.0.0.1 ff02::1; do
    conf "$name" > other
    refused "node 2: $name is no address"
done
conf 192.0.2.1 > other
refused 'nodes 1 and 2 have one address'
conf 192.0.2.3 > other
refused 'nodes 2 and 3 have one address'
conf 2001:db8::2 > other
refused 'nodes 1 and 2 have addresses of two families'
conf 192.0.2.2 | sed 's/nodeid: 2/nodeid: x/' > other
untaken 'BadConf BadNumber key nodeid'
conf 192.0.2.2 | sed 's/nodeid: 2/nodeid 2/' > other
untaken 'BadConf BadLine line 7'
conf 192.0.2.2 | sed 's/nodeid: 2/nodeid: 1/' > other
untaken 'BadConf RepeatedId id 1'
conf 192.0.2.2 | sed 's/nodeid: 2/nodeid: 2\n ring1_addr: 198.51.100.2/' > other
refused 'ring1_addr: node 1 has none'

# what is good
takes '' --open help
takes '' --key one help
takes '' --halt file --key one --key two --key three --links conf help
takes '' --links conf6 --open help
# the last address of a section counts, and one outside of a node section does not
conf 192.0.2.9 | sed 's/192.0.2.9/host\n ring0_addr: 192.0.2.2/; s/^nodelist {/ring0_addr: none\nnodelist {\nring0_addr: none/' > other
takes '' --links other --open help
# no file is made, and none but these is opened
same "$([ -e file ] || echo absent)" absent
# the command after them, and its words, are judged as ever
expect 2 'fault Usage\n' --open < /dev/null
expect 2 'fault Usage\n' --key one count more < /dev/null
expect 2 'fault Usage\n' help --open < /dev/null
expect 2 'fault Usage\n' --blank --anew create < /dev/null
expect 2 'fault Usage\n' create --blank --image disk < /dev/null
