# zsh -f offers.zsh FOLDER 'LINE': what zsh offers, with the completion functions of this folder, where the cursor stands at the end of this line: a
# word a line. A shell in a terminal of its own completes the line; its `compadd` says what is added, between two lines with a zero byte.
zmodload zsh/zpty
zpty shell zsh -f -i
print -r -- "fpath=(${(q)1} \$fpath)" '
PROMPT=
autoload -U compinit
compinit -C -u -d ./dump
bindkey "^I" complete-word
mark() { print -r -- $'\''\0'\'' }
compprefuncs=(mark)
comppostfuncs=(mark exit)
zstyle ":completion:*" insert-tab false
compadd() {
    if [[ ${@[1,(i)(-|--)]} != *-(O|A|D)\ * ]]; then
        local -a added
        builtin compadd -O added "$@"
        (( ! $#added )) || print -rl -- $added
    fi
    builtin compadd "$@"
}
print -r -- began' > begin.zsh
zpty -w shell source ./begin.zsh
zpty -r -m shell began '*began*' || exit 1
zpty -w -n shell "$2"$'\t'
marks=0
while zpty -r shell; do :; done | while IFS= read -r line; do
    line=${line%$'\r'}
    if [[ $line == *$'\0'* ]]; then
        (( marks += 1 ))
    elif (( marks == 1 )) && [[ -n $line ]]; then
        print -r -- ${line##*$'\r'}
    fi
done
