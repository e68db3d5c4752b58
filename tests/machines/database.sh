# shellcheck shell=bash
# What bed.sh and scenes.sh set is used here; what stands in single quotes is for the shell of a machine.
# shellcheck disable=SC2154,SC2034,SC2016
# PostgreSQL as the resource of the machines, with its data on a disk that all of them share, and clients beside the machines. Sourced by `machines`.
CLIENT='host=10.7.0.100 user=postgres dbname=postgres connect_timeout=2 tcp_user_timeout=3000 keepalives_idle=2 keepalives_interval=1 keepalives_count=2'
database_scenes=(database_power_cut database_site_off)
all_scenes+=("${database_scenes[@]}")

# pg NAME WORD..: that program of PostgreSQL
pg() { "$(echo /usr/lib/postgresql/*/bin/"$1")" "${@:2}"; }

# as_postgres COMMAND..: as the user of the data
as_postgres() { setpriv --reuid=postgres --regid=postgres --clear-groups env HOME=/ "$@"; }

# make_data: the files of a database with the tables of pgbench and of the writer. With the lie no_fsync it waits for no disk
make_data() {
    local at=$room/made bin
    bin=$(dirname "$(echo /usr/lib/postgresql/*/bin/postgres)")
    [ ! -e "$at" ] || return 0
    mkdir "$at" && chown postgres: "$at" && chmod 711 "$room" || return 1
    as_postgres "$bin/initdb" -D "$at/data" -N -A trust --locale=C -E UTF8 > "$room/made.log" 2>&1 || { cat "$room/made.log"; return 1; }
    as_postgres "$bin/pg_ctl" -D "$at/data" -w -l "$at/log" -o "-c listen_addresses= -c unix_socket_directories=$at -c fsync=off" start > /dev/null &&
        pg pgbench -h "$at" -U postgres -i -q postgres > /dev/null 2>&1 &&
        pg psql -h "$at" -U postgres -qc 'create table rows (number int primary key)' postgres &&
        as_postgres "$bin/pg_ctl" -D "$at/data" -w -m fast stop > /dev/null || return 1
    echo 'host all all 10.7.0.0/24 trust' >> "$at/data/pg_hba.conf"
    {
        printf '%s\n' "listen_addresses = '*'" "unix_socket_directories = ''" "shared_buffers = 16MB" "max_connections = 20" "max_wal_size = 64MB" "min_wal_size = 32MB" \
            "checkpoint_timeout = 30s" "jit = off" "timezone = 'GMT'" "log_timezone = 'GMT'"
        [ "${QUORUMD_TEST_LIAR-}" != no_fsync ] || echo 'fsync = off'
    } >> "$at/data/postgresql.conf"
}

# make_tools: a disk that no machine writes, with the programs of PostgreSQL and their libraries
make_tools() {
    local root=$room/tools-root bin name
    [ ! -e "$room/tools" ] || return 0
    bin=$(dirname "$(echo /usr/lib/postgresql/*/bin/postgres)")
    mkdir -p "$root/etc" "$root/lib" "$root/$bin" "$root/${bin%/bin}/lib" "$root/usr/share/postgresql"
    cp "$bin/postgres" "$bin/pg_ctl" "$root/$bin/" && cp "${bin%/bin}"/lib/{plpgsql,dict_snowball}.so "$root/${bin%/bin}/lib/" || return 1
    name=${bin%/bin}
    cp -r "/usr/share/postgresql/${name##*/}" "$root/usr/share/postgresql/" || return 1
    for name in $(ldd "$bin/postgres" "$bin/pg_ctl" | grep -o '/[^ ]*' | grep -v ':$' | sort -u); do cp -L "$name" "$root/lib/" || return 1; done
    getent passwd root postgres > "$root/etc/passwd" && getent group root postgres > "$root/etc/group" || return 1
    truncate -s 160M "$room/tools" && mkfs.ext4 -q -d "$root" "$room/tools" && rm -rf "$root"
}

# data_disk: a new disk with the data
data_disk() {
    make_data && make_tools && mkdir -p "$room/data-root" && cp -a "$room/made/data" "$room/data-root/" && truncate -s 400M "$room/data" &&
        mkfs.ext4 -q -d "$room/data-root" "$room/data"
}

# data_words: the words of QEMU for both disks. What a machine writes to its data is on the disk of this host once that disk says so
data_words() {
    printf '%s\n' -drive "if=none,id=tools,file=$room/tools,format=raw,readonly=on,file.locking=off" -device "virtio-blk-pci,drive=tools,serial=tools" \
        -drive "if=none,id=data,file=$room/data,format=raw,cache=none,file.locking=off" -device "virtio-blk-pci,drive=data,serial=data,share-rw=on"
}

# sql STATEMENT: a client of the cluster's address
sql() { timeout 30 ip netns exec "$tag" "$(echo /usr/lib/postgresql/*/bin/psql)" "$CLIENT" -qAtXc "$1" 2> /dev/null; }

# load: the writer and pgbench begin, and go on to the end of the scene
load() {
    touch "$room/loaded"
    quickly "$here/rows" "$CLIENT" > "$room/acknowledged" 2> "$room/rows.log" &
    servers[10]=$!
    disown
    until_true 60 has_rows 20 || return 1
    keep_busy > "$room/pgbench.log" 2>&1 &
    until_true 60 has_rows 40
}

# keep_busy: pgbench, again where it lost its database
keep_busy() {
    while [ -e "$room/loaded" ]; do
        inside "$(echo /usr/lib/postgresql/*/bin/pgbench)" -n -c 2 -R 20 -T 20 "$CLIENT"
        sleep 1
    done
}

has_rows() { [ "$(wc -l < "$room/acknowledged")" -ge "$1" ]; }

# writes_again SECONDS: so many seconds at most, and rows are acknowledged again
writes_again() { until_true "$1" has_rows $(($(wc -l < "$room/acknowledged") + 5)); }

# rows_now [N]: what is said of the rows that were acknowledged, of all or after the first N, and of those that are lost
rows_now() {
    cp "$room/acknowledged" "$room/wanted" # the writer goes on
    sql 'select number from rows' > "$room/found" || { echo 'the database does not say its rows' >&2; return 1; }
    "$here/../judge-rows" --from "${1:-0}" "$room/wanted" "$room/found"
}

# sums: of the accounts, the tellers, the branches and the history of pgbench, at one moment
sums() {
    sql 'select (select sum(abalance) from pgbench_accounts), (select sum(tbalance) from pgbench_tellers), (select sum(bbalance) from pgbench_branches),
        (select coalesce(sum(delta), 0) from pgbench_history), (select count(*) from pgbench_history)'
}

# sums_agree: the four are the same. A database that was just started may answer late
sums_agree() {
    local accounts tellers branches history count
    until_true 100 has_sums || return 1
    IFS='|' read -r accounts tellers branches history count < "$room/sums"
    echo "pgbench: $accounts $tellers $branches $history, $count transactions"
    [ "$accounts" = "$tellers" ] && [ "$accounts" = "$branches" ] && [ "$accounts" = "$history" ]
}
has_sums() { sums > "$room/sums"; }

# judge_rows: no row is lost that was acknowledged, and the sums of pgbench agree
judge_rows() { rows_now && { sums_agree || { echo 'the sums of pgbench differ'; return 1; }; }; }

# The holder's power is gone for a moment: the next holder has each row that was acknowledged.
scene_database_power_cut() {
    DATABASE=1 FIRMWARE=60 begun nbd && load && sleep 10 || return 1
    fault 'the power of machine 1 is cut'
    tell cut 1
    until_true 60 did 1 reset && taken_over && resets_are 1 0 0 && writes_again 60 && sleep 3 && judge_rows
}

# The power of a whole site is gone while rows are written, and comes back: whichever machine holds then has each row that was acknowledged.
scene_database_site_off() {
    local number
    DATABASE=1 begun nbd && load && sleep 10 && site_is_off || return 1
    for number in 1 2 3; do switched_on "$number"; done
    until_true 150 owner && writes_again 90 && sleep 3 && judge_rows && resets_are 0 0 0
}

# The campaign, which `bench/take-overs` plays: take-overs on machines that stay on, each second one a power cut. A line of each is written to TAKE_OVERS: its number, what
# befell which machine, which one took over, seconds from the fault to the reset and to the first sign of another machine (`-`: none), the longest time without a row in
# milliseconds, the rows that were acknowledged since the fault, those of all that are lost, whether the sums of pgbench agree, the word of the judge, when it was, and the way of
# the disk.
TAKE_OVERS=${QUORUMD_TEST_TAKE_OVERS-}
CUTS=(cut plug)
OTHERS=(kill hang panic cable message)

kind_of() { if [ $(($1 % 2)) = 1 ]; then echo "${CUTS[$1 / 2 % 2]}"; else echo "${OTHERS[$1 / 2 % 5]}"; fi; }

# befall KIND N: the fault of machine N
befall() {
    case $1 in
    cut) tell cut "$2" ;;
    plug) tell off "$2" ;;
    kill) order "$2" 'kill -KILL $(cat /run/node)' ;;
    hang) order "$2" 'kill -STOP $(cat /run/node)' ;;
    panic) order "$2" 'echo c > /proc/sysrq-trigger' ;;
    cable) ip -n "$tag" link set "t$2" nomaster ;;
    message) leave_for "$2" reset ;;
    esac
}

# restore KIND N: what does not end by itself
restore() {
    case $1 in
    plug) tell power "$2" ;;
    cable) ip -n "$tag" link set "t$2" master br0 ;;
    esac
}

# bounds_of KIND: the scene whose bounds it has to keep to
bounds_of() {
    case $1 in
    cut) echo database_power_cut ;;
    plug) echo power_off ;;
    kill) echo "kill_$way" ;;
    cable) echo "cut_$way" ;;
    message) echo message_reset ;;
    *) echo "$1" ;;
    esac
}

# since LINE: the events of the scene from that line on
since() { tail -n "+$1" "$room/events"; }

# all_there LINE: each machine said since that event a view with all three, and none else after it
all_there() { since "$1" | awk '/ event=view / { view[$2] = $0 } END { for (n = 1; n <= 3; n++) if (view[n] !~ / members=1,2,3 /) exit 1 }'; }

is_quick() { slow=$(slow_now) && [ "${slow%.*}" -lt "$MOST_SLOW" ]; }

# times_of VICTIM: of a take-over, which machine held next, and when the reset and its first sign came after the fault
times_of() {
    awk -v victim="$1" '$3 == "fault" { fault = $1 } $2 == victim && $3 == "reset" && !reset { reset = $1 - fault }
        $3 == "sign" && $2 != victim && fault && !next_one { next_one = $2; held = $1 - fault }
        END { printf "%s\t%s\t%.2f", next_one, reset ? sprintf("%.2f", reset) : "-", held }' "$room/round"
}

# record NUMBER KIND VICTIM ROWS: its line, once a take-over is over; ROWS is how many were acknowledged at its fault
record() {
    local word=passed rows lost longest sums=differ
    "$here/judge" --scene "$(bounds_of "$2")" --times "$TIMES" --slow "$slow" --first "$3" "$room/round" | grep 'OUT OF BOUNDS\|TWO OWNERS' && word=FAILED
    read -r rows _ _ lost _ longest _ < <(rows_now "$4") || rows=0 lost=unknown longest=0
    [ "$lost" = 0 ] || word=FAILED
    sums_agree && sums=agree || word=FAILED
    [ -s "$room/sums" ] || sums=unknown
    printf '%s\t' "$1" "$2" "$3" "$(times_of "$3")" "$longest" "$rows" "$lost" "$sums" "$word" "$(date -u +%FT%TZ)" >> "$TAKE_OVERS"
    echo "$way" >> "$TAKE_OVERS"
}

# take_over NUMBER: one of them, from a cluster in which all is well to the next one
take_over() {
    local kind victim from rows
    kind=$(kind_of "$1")
    until_true 600 is_quick && victim=$(owner) || return 1
    sleep $((RANDOM % 6))
    from=$(($(wc -l < "$room/events") + 1))
    rows=$(wc -l < "$room/acknowledged")
    fault "$1: $kind of machine $victim"
    befall "$kind" "$victim"
    until_true 90 another_owns "$victim" && writes_again 90 || return 1
    restore "$kind" "$victim"
    since "$from" > "$room/round"
    record "$1" "$kind" "$victim" "$rows"
    until_true 150 all_there "$from" && writes_again 60
}

scene_take_overs() {
    local number
    DATABASE=1 FIRMWARE=26 begun "${QUORUMD_TEST_WAY:-nbd}" && load || return 1
    for number in $(seq $(($(wc -l < "$TAKE_OVERS") + 1)) "$QUORUMD_TEST_TAKE_OVERS_TO"); do
        take_over "$number" || return 1
    done
    ! grep -q FAILED "$TAKE_OVERS"
}
