# Each script of the repository is read by shellcheck, and each Python file, and the Python inside of a script, by pyflakes, where they are installed.

python=() shell=() plain=()
while IFS= read -r -d '' file; do
    case $file in
        *.py) python+=("$file") ;;
        *.sh | *.bash) shell+=("$file") ;;
        *)
            # what its first line says it is
            IFS= read -r -n 64 first < "$file" || true
            if [[ $first =~ ^#!.*python3 ]]; then
                python+=("$file")
            elif [[ $first =~ ^#!.*bash ]]; then
                shell+=("$file")
            elif [[ $first =~ ^#!.*[\ /]sh ]]; then
                plain+=("$file")
            fi
            ;;
    esac
done < <(find "$TOP" \( -name .git -o -name out -o -name crates \) -prune -o -type f -print0 | sort -z)
[ "${#python[@]}" -gt 20 ] && [ "${#shell[@]}" -gt 50 ] && [ "${#plain[@]}" -gt 10 ]
# what stands in a script between <<'PY' and PY
mkdir inside
grep -lE '<<.PY.$' "${shell[@]}" | while IFS= read -r file; do
    awk '/^PY$/ { inside = 0 } inside { print } /<<.PY.$/ { inside = 1 }' "$file" > "inside/${file//\//-}.py"
done

if command -v pyflakes3 > /dev/null; then
    pyflakes3 "${python[@]}" inside/*
else
    echo 'skipped: not installed (Debian: pyflakes3), to read the Python files'
fi
# Left out: variables that a sourced file sets or reads (2034, 2154), arguments of a function that has none today (2120), `cd` under `bash -e`
# (2164), names of files that a test made itself (2010, 2011), a variable before the call of a function (2097, 2098), a file with the name of a
# command (2238)
if command -v shellcheck > /dev/null; then
    left_out=2034,2154,2120,2164,2010,2011,2097,2098,2238
    printf '%s\0' "${shell[@]}" | xargs -0 -n 8 -P 4 shellcheck -s bash -S warning -e $left_out
    printf '%s\0' "${plain[@]}" | xargs -0 -n 8 -P 4 shellcheck -s dash -S warning -e $left_out
else
    echo 'skipped: not installed (Debian: shellcheck), to read the scripts'
fi
