# completed.zsh FOLDER LINE: prints what zsh offers to complete the line with, a word each, by the completions of the folder. It starts a zsh on a terminal of its own, which
# sources this file too, and is sent the line and a tab.
if [[ -n ${completions_of-} ]]; then
    fpath=($completions_of $fpath)
    autoload -Uz compinit
    compinit -u -D
    bindkey '^I' complete-word
    compprefuncs=(starts_words)
    comppostfuncs=(ends_words)
    starts_words() { print -r -- 'begin of words' }
    ends_words() {
        print -r -- 'end of words'
        exit
    }
    # (of what a completion adds, that which fits the line, with the = that is to follow)
    compadd() {
        local -a hits
        if [[ ${@[1,(i)(-|--)]} != *-(O|A|D)\ * ]]; then
            builtin compadd -A hits "$@"
            [[ "$*" != *'-S = '* ]] || hits=(${^hits}=)
            (($#hits == 0)) || print -rl -- $hits
        fi
        builtin compadd "$@"
    }
    return
fi
zmodload zsh/zpty || exit 2
export completions_of=$1
zpty z zsh -f -i
zpty -w z "PROMPT=; source ${(q)0:a}; echo re''ady"
repeat 200; do
    zpty -r -m z REPLY '*ready*' && break
    sleep 0.05
done
zpty -w -n z "$2"$'\t'
text=''
repeat 200; do
    zpty -r -t z REPLY && text+=$REPLY || sleep 0.05
    [[ $text != *'end of words'* ]] || break
done
zpty -d z
text=${${text#*begin of words}%%end of words*}
print -rl -- ${${(f)text}//$'\r'/} | sed '/^$/d'
