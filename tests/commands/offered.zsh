# What zsh offers to complete a line: zsh -f offered.zsh FOLDER LINE FILE
# FOLDER has the completions; FILE is written. A shell in a terminal of its own gets the line and a tab, and ends after that.
zmodload zsh/zpty
start() {
    PROMPT=
    unsetopt autolist
    fpath=($FOLDER $fpath)
    autoload -Uz compinit
    compinit -D -u
    bindkey '^I' complete-word
    zstyle ':completion:*' insert-tab false
    compadd() { # as the shell's own, with what it offers put into the file
        [[ ${@[(I)-(A|O|D)]} -eq 0 ]] || { builtin compadd "$@"; return; }
        local -a offered
        builtin compadd -O offered "$@"
        print -rl -- $offered >> $OFFERED
        builtin compadd "$@"
    }
    comppostfuncs=(exit)
}
export FOLDER=$1 OFFERED=$3
: > $OFFERED
zpty shell zsh -f -i
zpty -w shell "$(functions start); start"
zpty -w -n shell "$2"$'\t'
while zpty -r shell; do :; done > /dev/null
cat $OFFERED
