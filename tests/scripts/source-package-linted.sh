# packaging/build-deb --source: lintian finds no error in the source package, and nothing to warn of. It takes a minute of a processor, the more files the longer.
. "$TOP/tests/expect.sh"

if ! command -v lintian > /dev/null || ! command -v dpkg-source > /dev/null; then
    printf 'skipped: lintian is not installed (Debian: lintian), so the source package was not looked at by it\n'
    exit 0
fi
source=$("$TOP/packaging/build-deb" --source .)
same "$(lintian --allow-root --fail-on error,warning "$source" 2>&1)" ''
