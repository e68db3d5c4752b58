# packaging/build-deb: the package is unpacked into an empty root, and the examples of its pages are run there. The program is the one that was built.
. "$TOP/tests/expect.sh"

if ! command -v dpkg-buildpackage > /dev/null; then
    printf 'skipped: dpkg-buildpackage is not installed (Debian: dpkg-dev), so no package was built\n'
    exit 0
fi
if [ "$(dpkg --print-architecture)" != amd64 ]; then
    printf 'skipped: this machine is no amd64, so no package was built\n'
    exit 0
fi
# the programs that are packed are those that are tried
built=$QUORUMD
companion=$QUORUMCTL

mkdir one
package=$("$TOP/packaging/build-deb" one)
same "$package" "one/$(basename "$package")"
[[ $package =~ ^one/quorumd_[0-9.]+-[0-9]+_amd64\.deb$ ]] || { printf 'a package of this name: %s\n' "$package"; exit 1; }
version=$(basename "$package" | cut -d _ -f 2)
same "$(dpkg-deb --field "$package" Package Version Architecture | xargs)" "Package: quorumd Version: $version Architecture: amd64"
grep -q "^Version ${version%-*}, " "$TOP/README.md"
grep -q "^\.Os quorumd ${version%-*}$" "$TOP/man/quorumd.8"

dpkg -x "$package" root
dpkg-deb --control "$package" control
(cd root && md5sum --quiet -c ../control/md5sums)
same "$(cd root && find . -type f | wc -l)" "$(cat control/md5sums control/conffiles | wc -l)"
cmp root/usr/sbin/quorumd "$built"
cmp root/usr/sbin/quorumctl "$companion"
for page in root/usr/share/man/man?/*.gz; do
    zcat "$page" | cmp - "$TOP/man/$(basename "$page" .gz)"
done
for name in quorumd quorumctl quorumd-setup quorumd-acceptance quorumd-page quorumd-collect quorumd-resource story timeline; do
    cmp "root/usr/share/bash-completion/completions/$name" "$TOP/completions/quorumd.bash"
    cmp "root/usr/share/fish/vendor_completions.d/$name.fish" "$TOP/completions/quorumd.fish"
done
cmp root/usr/share/zsh/vendor-completions/_quorumd "$TOP/completions/_quorumd"
doc=$PWD/root/usr/share/doc/quorumd
diff -r "$doc/examples" "$TOP/examples"
grep -q '^License: Apache-2.0$' "$doc/copyright"
zcat "$doc/changelog.Debian.gz" | head -n 1 | grep -qF "quorumd ($version) "
same "$(ls control | xargs)" 'conffiles control md5sums postinst postrm prerm'
same "$(xargs < control/conffiles)" '/etc/needrestart/conf.d/quorumd.conf /etc/quorumd/agent.env /etc/quorumd/node.env'
same "$(ls root/lib/systemd/system | xargs)" 'quorumd-agent.socket quorumd-agent@.service quorumd-arbiter.service quorumd-arbiter@.service quorumd-handover.service quorumd-move.service quorumd-page.service quorumd-page.timer quorumd-renew@.service quorumd-renew@.timer quorumd-resource.service quorumd@.service'
same "$(ls root/usr/libexec/quorumd | xargs)" 'hand-over node-check node-ended node-images node-leave node-opened quorumd-agent quorumd_acceptance quorumd_page quorumd_resources.py quorumd_supervisor.py'
same "$(ls root/usr/sbin | xargs)" 'quorumctl quorumd quorumd-acceptance quorumd-collect quorumd-page quorumd-resource quorumd-setup'
same "$(ls root/usr/share/man/man1 root/usr/share/man/man8 | grep gz | xargs)" \
    'scenario.1.gz story.1.gz timeline.1.gz quorumctl.8.gz quorumd-acceptance.8.gz quorumd-agent.8.gz quorumd-collect.8.gz quorumd-page.8.gz quorumd-resource.8.gz quorumd-setup.8.gz quorumd.8.gz'
# what it depends on is what its scripts call, and the C library of the programs
same "$(dpkg-deb --field "$package" Depends | sed 's/ (>= [^)]*)//g')" 'libc6, iproute2, python3, systemd'
cmp root/usr/share/quorumd/halt.conf "$TOP/packaging/halt.conf"
for unit in root/lib/systemd/system/*; do
    grep -q '^Documentation=man:' "$unit" || { printf '%s names no manual page\n' "$unit"; exit 1; }
done
# needrestart leaves the node, its supervisor and the resources alone
mkdir conf.d
sed "s|/etc/quorumd|$PWD/conf.d|g" root/etc/needrestart/conf.d/quorumd.conf > conf.d/quorumd.conf
printf '[database]\nagent = systemd:postgresql@15-main.service\n[other]\nagent = ocf:heartbeat:IPaddr2\n' > conf.d/resources.conf
printf 'IMAGE=etcd:127.0.0.1:2379/quorumd\n' > conf.d/node-1.env
for unit in quorumd@1.service:kept quorumd-resource.service:kept postgresql@15-main.service:kept etcd.service:kept postgresql@15-other.service:started cron.service:started; do
    same "$unit" "${unit%:*}:$(perl -e 'our %nrconf; do $ARGV[0] or die $@; print((grep { $ARGV[1] =~ $_ } keys %{$nrconf{override_rc}}) ? "kept" : "started")' "$PWD/conf.d/quorumd.conf" "${unit%:*}")"
done
# the acceptance finds its modules and its probe where the package has them
(cd root/usr/sbin && sed 's|/usr/libexec|../libexec|' quorumd-acceptance | python3 -B - --help) | grep -q '^usage: quorumd-acceptance '
[ -f root/usr/libexec/quorumd/quorumd_acceptance/probe.sh ]
# so does the page its own, and it writes one of a host without a node; whoever is asked for help gets an archive
(cd root/usr/sbin && sed 's|/usr/libexec|../libexec|' quorumd-page | python3 -B - "$OLDPWD/page.html") 2> said
grep -q '<h1>unknown</h1>' page.html
cmp root/usr/share/quorumd/contrib/quorumd.rules.yml "$TOP/contrib/quorumd.rules.yml"
PATH=$PWD/root/usr/sbin:$PATH QUORUMD_ETC=$PWD/root/etc QUORUMD_RUN=$PWD/none root/usr/sbin/quorumd-collect host.tar.gz > said 2> errors
same "$(cat said)" host.tar.gz
tar -tzf host.tar.gz > said
grep -qx host/settings/quorumd/node.env said
# systemd takes the units; what they call is where they say
if command -v systemd-analyze > /dev/null; then
    same "$(systemd-analyze verify --man=no root/lib/systemd/system/quorumd* 2>&1 | grep -v ': Command /usr/[^ ]* is not executable' || true)" ''
    systemd-analyze security --offline=true --threshold=25 root/lib/systemd/system/quorumd@.service > said || { tail -n 1 said; exit 1; }
else
    printf 'skipped: systemd-analyze is not installed (Debian: systemd), so the units were not looked at\n'
fi
for called in $(sed -n 's|^Exec[A-Za-z]*=+\{0,1\}\(/usr/[^ ]*\).*|\1|p' root/lib/systemd/system/*); do
    [ "$called" = /usr/bin/systemctl ] || [ "$called" = /usr/bin/env ] || [ -x "root$called" ] || { printf 'a unit calls %s, which is not in the package\n' "$called"; exit 1; }
done
# the words of the unit, with what the template of a node says, are a node of quorumd: its settings text is read, and it has no node 9. What
# systemd makes of the units is seen in tests/hosts.
# shellcheck disable=SC1091
. root/etc/quorumd/node.env
words=$(sed -n 's|^ExecStart=.*/usr/sbin/quorumd||p' root/lib/systemd/system/quorumd@.service | sed 's/%i/9/g')
status=0
# shellcheck disable=SC2086
eval "$built $words" < "$TOP/examples/two-node.conf" > said || status=$?
same "$status $(cat said)" '16 fault UnknownNode 9'

# dpkg installs it into an empty root, without the libraries that it depends on, and removes all of it again
if [ "$(id -u)" = 0 ]; then
    mkdir -p empty/var/lib/dpkg/info empty/var/lib/dpkg/updates
    touch empty/var/lib/dpkg/status empty/var/lib/dpkg/available
    in_root() {
        dpkg --root="$PWD/empty" --log="$PWD/log" --force-depends --force-script-chrootless "$@" > said 2>&1 || { cat said; exit 1; }
    }
    in_root --install "$package"
    cmp empty/usr/sbin/quorumd "$built"
    same "$(empty/usr/sbin/quorumd count < "$TOP/examples/count.txt" | tail -n 1)" 'end 2'
    printf 'IMAGE=/srv/other\n' > empty/etc/quorumd/node.env
    in_root --remove quorumd
    same "$(cat empty/etc/quorumd/node.env)" IMAGE=/srv/other
    in_root --purge quorumd
    same "$(ls empty | xargs)" var
else
    printf 'skipped: only root can install a package, so it was unpacked alone\n'
fi

# all that a newcomer runs is that of the package, and nothing is written into it
unset QUORUMD QUORUMCTL
chmod -R a-w root/usr/share
python3 -B "$TOP/tests/parts/package.py" root/usr/share/quorumd docs/README.md docs/NIGHT.md docs/STATUS.md docs/HOST.md docs/IMAGE.md docs/dev/SAFETY.md contrib/README.md
chmod -R u+w root/usr/share
(cd root && md5sum --quiet -c ../control/md5sums)
cd "$(mktemp -d -p .)"

# words that are none
for words in --no-such-word 'one two' no-such-folder; do
    status=0
    "$TOP/packaging/build-deb" $words > said 2> errors || status=$?
    same "$status $(tail -n 1 errors)" '2 usage: packaging/build-deb [--source] [FOLDER]'
done

if command -v lintian > /dev/null; then
    same "$(lintian --allow-root --fail-on error,warning "../$package" 2>&1)" ''
else
    printf 'skipped: lintian is not installed (Debian: lintian), so the package was not looked at by it\n'
fi
