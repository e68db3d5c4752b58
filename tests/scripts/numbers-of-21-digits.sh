# A number has at most 20 digits, leading zeros counted: in the words of a command a longer one is Usage, in a settings text
# BadNumber.
. "$TOP/tests/expect.sh"

nineteen=$(printf '%019d' 0)
expect 0 'created nodes 1\n' create --image disk --timing ${nineteen:3}5000,${nineteen:4}10000,1000,2000,1000 < "$TOP/examples/one-node.conf"
expect 2 'fault Usage\n' create --image disk --timing 0${nineteen:3}5000,10000,1000,2000,1000 < "$TOP/examples/one-node.conf"
expect 0 'sent off to 1\n' message --image disk --id ${nineteen}1 --kind off
expect 2 'fault Usage\n' message --image disk --id 0${nineteen}1 --kind off
expect 0 'soak seed 0 events 1 boots 0 crashes 0 resets 0 starts 0 stops 0 most_holders 0\n' soak ${nineteen}0 ${nineteen}1
expect 2 'fault Usage\n' soak 0${nineteen}0 1
expect 2 'fault Usage\n' soak 0 0${nineteen}1

printf 'nodelist {\nnode {\nnodeid: %s1\n}\n}\n' $nineteen > settings
expect 0 'created nodes 1\n' create --image disk < settings
printf 'nodelist {\nnode {\nnodeid: 0%s1\n}\n}\n' $nineteen > settings
expect 3 'fault BadConf BadNumber key nodeid\n' create --image disk < settings
