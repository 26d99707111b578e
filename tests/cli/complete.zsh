# What zsh offers after each command line of standard input, by the completions in a folder.
# usage: zsh -f tests/cli/complete.zsh FOLDER
# A second shell runs at a terminal of its own. There each match is written between < and > as it is added.
zmodload zsh/zpty
zpty shell TERM=dumb zsh -f -i
zpty -w shell "PS1= PS2=; fpath=(${(q)1} \$fpath); autoload -Uz compinit; compinit -u -D"
zpty -w shell 'compadd() {
    if [[ ${@[1,(i)(-|--)]} != *-(O|A|D)\ * ]]; then
        local -a matches
        builtin compadd -O matches "$@"
        print -rl -- "<"${^matches}">"
    fi
    builtin compadd "$@"
}
offered() { _main_complete; compstate[insert]= compstate[list]=; print "<end>" }
zle -C offered complete-word offered
bindkey "^I" offered
bindkey "^U" kill-whole-line
print "<be""gin>"'
zpty -r shell text '*<begin>*'
while IFS= read -r words; do
    zpty -w -n shell "$words"$'\t'
    zpty -r shell text '*<end>*'
    matches=$(print -r -- "$text" | grep -o '<[^<>]*>' | grep -v '<end>' | tr -d '<>' | sort -u | paste -s -d ' ')
    print -r -- "$words|$matches"
    zpty -w -n shell $'\025'
done
