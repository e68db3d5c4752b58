# For scripts that refuse memory: each allocation of a run is refused in turn, by limits of the address space that grow by a page. A run
# then ends with status 11 and `fault NoMemory`, after a prefix of what it writes where it has all that it asks for.
. "$TOP/tests/expect.sh"

# before_each, after_refusal: what a script does before each run, and after each run that was refused
before_each() { :; }
after_refusal() { :; }

# where the C library is: the system's loader then maps no list of all libraries, which would take more room than the program where there are many
library=$(ldd "$QUORUMD" | awk '$1 == "libc.so.6" { print $3 }')
library=${library%/*}

# limited WORD..: runs the program with these words under the limit; each of its allocations has pages of its own
limited() {
    before_each
    [ "$limit" -lt 65536 ] || wrong "$@"
    status=0
    (ulimit -v "$limit" && LD_LIBRARY_PATH=$library GLIBC_TUNABLES=glibc.malloc.mmap_threshold=1 exec "$QUORUMD" "$@") \
        < "$input" > got 2> errors || status=$?
}

# to_the_least WORD..: moves the limit, up to 16 kilobytes, below the least under which the program begins; there the system
# cannot load it
to_the_least() {
    limit=1024
    limited "$@"
    until [ "$status" = 11 ] || [ "$status" = 0 ]; do
        limit=$((limit + 16))
        limited "$@"
    done
    limit=$((limit - 16))
}

wrong() {
    printf 'quorumd %s, with %s kilobytes: status %s, and it wrote\n%s\n' "$*" "$limit" "$status" "$(tail -n 3 got errors)"
    exit 1
}

# refused FILE WORD..: the program with these words, which reads FILE, is refused one allocation after the other, until it has
# them all. Where $needs_none is yes it may be that none is refused. The file `whole` has then what it writes, and `places` gets how many lines stand before the fault line of each other run.
# A program begins with 128 kilobytes of stack, and a command may need $stack_pages pages more (2): so many limits, a page apart, give it none.
refused() {
    local begun=no stack=0
    input=$1
    shift
    before_each
    "$QUORUMD" "$@" < "$input" > whole 2> errors
    to_the_least "$@"
    while :; do
        limited "$@"
        case $status$(tail -n 1 got) in
        0*) break ;;
        11 | '11fault NoMemory')
            begun=yes
            head -n -1 got > before
            cmp -s -n "$(stat -c %s before)" before whole || wrong "$@"
            wc -l < before >> places
            after_refusal
            ;;
        # the system had an allocation's page, and none for the stack to grow by, and ended the program by a signal
        139*)
            stack=$((stack + 1))
            [ "$stack" -le "${stack_pages-2}" ] || wrong "$@"
            ;;
        # the system could not load the program
        *) [ "$begun" = no ] || wrong "$@" ;;
        esac
        limit=$((limit + 4))
    done
    [ "$begun" = yes ] || [ "${needs_none-no}" = yes ] || wrong "$@"
    cmp -s got whole || wrong "$@"
}

# was_refused_after LINES..: one of the runs was refused after each of these numbers of lines
was_refused_after() {
    local lines
    for lines in "$@"; do
        grep -qx "$lines" places || return 1
    done
}

# refused_after 'LINES..' FILE WORD..: the same, and one of the runs was refused after each of these numbers of lines. The system puts
# the stack elsewhere in each run, which can take a page more or less: so it is tried up to five times.
refused_after() {
    local wanted=$1 tries
    shift
    : > places
    for tries in 1 2 3 4 5; do
        refused "$@"
        # shellcheck disable=SC2086
        was_refused_after $wanted && return
    done
    same "after $(sort -nu places | tr '\n' ' ')lines" "also after $wanted lines"
}

# packets_and_leftovers ['IMAGES..']: a schedule that asks for memory at many events; of three images, where their numbers are given. Node 1 asks
# node 2 at each view that it is told; node 2 crashes while the claim of its slot is out, which is then left over.
packets_and_leftovers() {
    local images=${1-}
    printf 'nodelist {\n'
    printf 'node {\nnodeid: %s\n}\n' 1 2 3 4 5 6 7 8
    printf '}\n----\ntiming 5000 10000 1000 2000 1000\nboot 1 0\n'
    operations 1 4 "$images"
    printf 'view 1 1 1,2,3,4,5,6,7,8\nboot 2 0\n'
    operations 2 2 "$images"
    printf 'crash 2\n'
    printf 'view 1 %s 1,2,3,4,5,6,7,8\n' $(seq 2 100)
}

# operations ID COUNT 'IMAGES..': so many operations of the node land, on each of these images where their numbers are given, and are answered
operations() {
    local image
    for _ in $(seq "$2"); do
        for image in $3; do
            printf 'land %s %s\n' "$1" "$image"
        done
        [ -n "$3" ] || printf 'land %s\n' "$1"
        printf 'done %s\n' "$1"
    done
}
