# What a host is, for quorumd-acceptance: lines `KEY VALUE`, a key perhaps several times. It changes nothing. ROOT stands before each path in a test.
# shellcheck shell=sh
# shellcheck disable=SC1090,SC2016
ROOT=${ROOT-}
PATH=$PATH:/usr/sbin:/sbin
say() { printf '%s\n' "$*"; }
sum_of() { cat "$@" 2> /dev/null | sha256sum | cut -c 1-16; }

say user "$(id -u)"
say machine "$(cat "$ROOT/proc/sys/kernel/random/boot_id" 2> /dev/null)"
say kernel "$(uname -r)"
say container "$(systemd-detect-virt --container 2> /dev/null || true)"
say package "$(dpkg-query -W -f '${Version}' quorumd 2> /dev/null)"
say program "$(sha256sum "$ROOT/usr/sbin/quorumd" 2> /dev/null | cut -c 1-16)"
for text in corosync.conf resources.conf agent.env; do
    [ ! -s "$ROOT/etc/quorumd/$text" ] || say "text:$text" "$(sum_of "$ROOT/etc/quorumd/$text")"
done
for id in $(sed -n 's/^[ \t]*nodeid[ \t]*:[ \t]*\([0-9]*\).*/\1/p' "$ROOT/etc/quorumd/corosync.conf" 2> /dev/null); do say member "$id"; done

# of the node: what its file says, its keys, the times of its image, its watchdog
for file in "$ROOT"/etc/quorumd/node-*.env; do
    [ -e "$file" ] || continue
    id=${file##*/node-}
    id=${id%.env}
    say node "$id"
    IMAGE='' COMMAND=node EDGE='' WATCHDOG=''
    eval "$(sed -n 's/^\(IMAGE\|COMMAND\|EDGE\|WATCHDOG\|WATCHDOG_IS_NO_DEVICE\)=\([^"'"'"'$`\\]*\)$/\1='"'"'\2'"'"'/p' "$file")"
    keys=$(printf '%s\n' "$EDGE" | grep -o -e '--key  *[^ ]*' | sed "s|--key  *|$ROOT|")
    # shellcheck disable=SC2086
    [ -z "$keys" ] || say key "$(sum_of $keys)"
    say unit "$(systemctl is-active "quorumd@$id.service" 2> /dev/null)"
    say status "$(cat "$ROOT/run/quorumd/node-$id.json" 2> /dev/null)"
    . "$ROOT/usr/libexec/quorumd/node-images" 2> /dev/null || continue
    for image in $(images); do
        say image "$image"
        is_there "$image" || continue
        times=$(timeout 30 quorumd dump --image "$image" 2> /dev/null | awk '$1 == "watchdog" || $1 == "msgwait" || $1 == "loop" || $1 == "read_limit" || $1 == "feed_delay" { printf " %s", $2 } $1 == "safe" { printf " %s", $2 }')
        say times "${times# }"
    done
    number=$(basename "$(readlink -f "$ROOT$WATCHDOG")")
    [ "$number" != watchdog ] || number=watchdog0
    folder=$ROOT/sys/class/watchdog/$number
    if [ "${WATCHDOG_IS_NO_DEVICE-no}" = yes ]; then
        say watchdog-is-none yes
    else
        say watchdog "$(cat "$folder/identity" 2> /dev/null)"
        say watchdog-seconds "$(cat "$folder/timeout" 2> /dev/null)"
    fi
done

# who else starts the database
for unit in $(sed -n 's/^[ \t]*agent[ \t]*=[ \t]*systemd:\([^ \t]*\).*/\1/p' "$ROOT/etc/quorumd/resources.conf" 2> /dev/null); do
    say resource "$unit"
    case $(systemctl is-enabled "$unit" 2> /dev/null) in
    enabled | enabled-runtime) say at-boot "$unit" ;;
    esac
    case $unit in
    postgresql@*)
        cluster=$(printf '%s' "${unit#postgresql@}" | sed 's/\.service$//; s|-|/|')
        [ "$(systemctl is-enabled postgresql.service 2> /dev/null)" != enabled ] || ! grep -qs '^[ \t]*auto' "$ROOT/etc/postgresql/$cluster/start.conf" || say at-boot "$unit"
        ;;
    esac
done

# unattended upgrades, and what they leave alone
if [ "$(systemctl is-enabled unattended-upgrades.service 2> /dev/null)" = enabled ]; then
    apt-config dump 2> /dev/null | grep -q '^APT::Periodic::Unattended-Upgrade "[1-9a]' && say unattended yes
    apt-config dump 2> /dev/null | sed -n 's/^Unattended-Upgrade::Package-Blacklist:: "\(.*\)";$/\1/p' | while read -r kept; do say upgrades-not "$kept"; done
fi
for unit in $(sed -n 's/^[ \t]*agent[ \t]*=[ \t]*systemd:\([^ \t]*\).*/\1/p' "$ROOT/etc/quorumd/resources.conf" 2> /dev/null); do
    path=$(systemctl show -P FragmentPath "$unit" 2> /dev/null)
    [ -z "$path" ] || dpkg-query -S "$path" 2> /dev/null | cut -d : -f 1 | while read -r owner; do say upgraded "$owner"; done
    case $unit in
    postgresql@*) version=${unit#postgresql@}; say upgraded "postgresql-${version%%-*}" ;;
    esac
done

# block servers with `raw` over sectors of 4096 bytes
for process in "$ROOT"/proc/[0-9]*; do
    [ "$(cat "$process/comm" 2> /dev/null)" = qemu-nbd ] || continue
    words=$(tr '\0' '\n' < "$process/cmdline" 2> /dev/null)
    printf '%s\n' "$words" | tr '\n' ' ' | grep -qE -e '(-f|--format)[ =]?raw( |$)' || continue
    served=$(printf '%s\n' "$words" | tail -n 1)
    device=$served
    [ -b "$served" ] || device=$(findmnt -n -o SOURCE -T "$served" 2> /dev/null)
    say raw "$(blockdev --getss "$device" 2> /dev/null || echo 0) $served"
done

# the clocks: whether the raw one is there, which one the node goes by, and how far a daemon may slew the other
python3 - "$ROOT/run/quorumd" << 'PY' 2> /dev/null || say clock unknown
import glob, json, sys, time
try:
    raw, slewed = (int(time.clock_gettime(clock) * 1000) for clock in (time.CLOCK_MONOTONIC_RAW, time.CLOCK_MONOTONIC))
except OSError:
    print("clock none")
    sys.exit()
said = "unknown"
for path in glob.glob(sys.argv[1] + "/node-*.json"):
    tick = json.load(open(path))["tick"]
    if abs(raw - slewed) > 2000 and min(abs(raw - tick), abs(slewed - tick)) < 10000:
        said = "raw" if abs(raw - tick) < abs(slewed - tick) else "slewed"
print("clock", said)
PY
if systemctl is-active --quiet chrony.service 2> /dev/null || systemctl is-active --quiet chronyd.service 2> /dev/null; then
    rate=$(chronyd -p 2> /dev/null | sed -n 's/^ *maxslewrate *\([0-9]*\).*/\1/p' | tail -n 1)
    say slew "${rate:-83333}"
fi
say end
