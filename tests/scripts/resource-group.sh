# quorumd-resource without root, systemd and agents of others: what it says of the file of its resources, and of words. A systemctl is played. What the
# supervisor does is in resource-supervisor.py.
. "$TOP/tests/expect.sh"

program=$TOP/contrib/quorumd-resource
mkdir -p ocf/resource.d/t run calls
printf '#!/bin/sh\nexit "${OCF_RESKEY_validate-0}"\n' > ocf/resource.d/t/File
cat > calls/systemctl << 'END'
#!/bin/sh
echo "$*" >> "$CALLS"
case $* in
*'-P LoadState'*) echo "${LOADED-loaded}" ;;
is-enabled*) echo "${ENABLED-disabled}" ;;
esac
END
chmod 755 ocf/resource.d/t/File calls/systemctl
export QUORUMD_AGENT_ENV=$PWD/agent.env OCF_ROOT=$PWD/ocf QUORUMD_RESOURCES=$PWD/conf QUORUMD_RUN=$PWD/run PATH=$PWD/calls:$PATH CALLS=$PWD/called

# said STATUS 'TEXT' 'FILE' WORD..: the file, what comes on both outputs for these words, and the status
said() {
    local status=$1 wanted=$2 got
    printf "$3" > conf
    shift 3
    got=$(timeout 60 "$program" "$@" 2>&1; echo "$?")
    same "$* of: $(cat conf)"$'\n'"${got//$PWD/HERE}" "$* of: $(cat conf)"$'\n'"$wanted${wanted:+$'\n'}$status"
}

a='[a]\nagent = ocf:t:File\nfile = fa\n'
b='[b]\nagent = ocf:t:File\nfile = fb\n'
unit='[u]\nagent = systemd:x.service\n'

# a file at fault
rm -f conf
same "$("$program" check 2>&1; echo $?)" "quorumd-resource: $PWD/conf: No such file or directory"$'\n1'
said 1 'quorumd-resource: HERE/conf names no resource' '' check
said 1 'quorumd-resource: a: agent = ' '[a]\n' check
said 1 'quorumd-resource: a: agent = lsb:x' '[a]\nagent = lsb:x\n' check
said 1 'quorumd-resource: a: ocf:t is no ocf:PROVIDER:TYPE' '[a]\nagent = ocf:t\n' check
said 1 'quorumd-resource: a: ocf:../t:File is no ocf:PROVIDER:TYPE' '[a]\nagent = ocf:../t:File\n' check
said 1 'quorumd-resource: a: no agent HERE/ocf/resource.d/t/None' '[a]\nagent = ocf:t:None\n' check
said 1 'quorumd-resource: a: foo-bar = 3' "${a}foo-bar = 3\n" check
said 1 'quorumd-resource: a: stop-timeout = x' "${a}stop-timeout = x\n" check
said 1 'quorumd-resource: a: stop-timeout = 0' "${a}stop-timeout = 0\n" check
said 1 'quorumd-resource: a: stop-timeout = 1.5' "${a}stop-timeout = 1.5\n" check
said 1 'quorumd-resource: a: a b is no name of a parameter' "${a}a b = 1\n" check
said 1 'quorumd-resource: a: ip has more than one line' "${a}ip = 1\n 2\n" check
said 1 'quorumd-resource: a: a unit has no parameter ip' '[a]\nagent = systemd:x.service\nip = 1\n' check
twice="quorumd-resource: While reading from 'HERE/conf' [line %2s]: "
said 1 "$(printf "$twice" 4)section 'a' already exists" "${a}[a]\n" check
said 1 "$(printf "$twice" 4)option 'file' in section 'a' already exists" "${a}file = fb\n" check
said 1 $'quorumd-resource: File contains no section headers.\nfile: \'HERE/conf\', line: 1\n\'file = fa\\n\'' 'file = fa\n' check
said 0 '' "$a$b$unit" check
LOADED=not-found said 1 'quorumd-resource: u: no unit x.service' "$unit" check
ENABLED=enabled said 1 'quorumd-resource: u: x.service is enabled: a boot would start it' "$unit" check
said 1 'quorumd-resource: a: validate-all says 5' "${a}validate = 5\n" check
said 0 '' "${a}validate = 3\n" check
said 1 'quorumd-resource: a b is no name of a resource: letters, digits and _ . @ : + -' '[a b]\n' check
many=$(printf '[u%s]\\nagent = systemd:x.service\\n' $(seq 17))
said 1 'quorumd-resource: HERE/conf: u17 is one resource too many: a group has at most 16' "$many" check
# one unit in the place of the file
echo 'AGENT=service x.service' > agent.env
ENABLED=enabled said 1 'quorumd-resource: x.service: x.service is enabled: a boot would start it' '' check
echo 'AGENT=service' > agent.env
said 1 'quorumd-resource: HERE/agent.env: AGENT=service is none of `group`, `service UNIT` and `none`' '' check
echo 'AGENT=none' > agent.env
said 0 '' '' check
echo 'AGENT=group' > agent.env

# without a supervisor
said 1 'nothing looks after the resources: systemctl status quorumd-resource.service' "$a" status
said 1 'quorumd-resource: the supervisor does not answer (No such file or directory): systemctl status quorumd-resource.service' "$a" move
said 0 '' "$a" maintenance on
[ -e run/maintenance ]
said 1 'quorumd-resource: not moved: maintenance is on' "$a" move
said 0 '' "$a" maintenance off
[ ! -e run/maintenance ]


# words that are none
for words in '' other 'maintenance' 'maintenance maybe' 'run now' stop; do
    # shellcheck disable=SC2086
    status=0; "$program" $words > got 2> errors || status=$?
    same "$words: $status" "$words: 2"
done
