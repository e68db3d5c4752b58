# packaging/build-deb --source: the source package is unpacked at another path, and dpkg-buildpackage makes the same bytes of it there as packaging/build-deb does
# of the clone.
. "$TOP/tests/expect.sh"

if ! command -v dpkg-buildpackage > /dev/null || [ "$(dpkg --print-architecture)" != amd64 ]; then
    printf 'skipped: dpkg-buildpackage is not installed (Debian: dpkg-dev), or this machine is no amd64, so no source package was made\n'
    exit 0
fi
mkdir one
source=$("$TOP/packaging/build-deb" --source one)
version=$(basename "$source" .dsc)
version=${version#quorumd_}
same "$source $(ls one | xargs)" "one/quorumd_$version.dsc quorumd_$version.debian.tar.xz quorumd_$version.dsc quorumd_${version%-*}.orig.tar.xz"
package=$("$TOP/packaging/build-deb" one)
mkdir -p another/path
dpkg-source --no-check -x "$source" another/path/unpacked > said 2>&1 || { cat said; exit 1; }
# what was proved here is what is packed; without these words it is release/, and only where that is of these sources
(cd another/path/unpacked && QUORUMD=$QUORUMD QUORUMCTL=$QUORUMCTL dpkg-buildpackage -b -d -us -uc) > said 2>&1 || { cat said; exit 1; }
cmp "$package" "another/path/$(basename "$package")"
(cd another/path/unpacked && debian/rules clean) > said 2>&1 || { cat said; exit 1; }
[ ! -e another/path/unpacked/debian/quorumd ]
# a source that is not the one of release/ is refused: nothing is packed that was proved from another one
echo >> another/path/unpacked/crates.txt
status=0
(cd another/path/unpacked && env -u QUORUMD -u QUORUMCTL debian/rules build) > said 2>&1 || status=$?
[ "$status" != 0 ]
grep -q 'a source was changed since the program was proved\|this program was never proved here' said
