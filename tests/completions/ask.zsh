# What zsh offers at the end of each line of a file: "NUMBER<tab>WORD" for each word. An interactive zsh without settings of its
# own is asked on a terminal of this one's, and notes what its completion adds.
#     zsh -f ask.zsh COMPLETION LINES FOLDER
completion=$1 lines=$2 folder=$3
zmodload zsh/zpty || exit 2
cat > $folder/inner <<'INNER'
PROMPT= RPROMPT=
fpath=($functions_folder $fpath)
autoload -Uz compinit && compinit -u -d $folder/dump
# Words that match are noted, whichever function of the completion adds them.
compadd() {
    if [[ ${@[1,(i)(-|--)]} != *-[a-zA-Z]#(O|A|D)\ * ]]; then
        local -a hits
        builtin compadd -A hits "$@"
        (( $#hits )) && printf "$number\t%s\n" $hits >> $folder/offered
    fi
    builtin compadd "$@"
}
ask-all() {
    number=0
    while IFS= read -r line; do
        (( number += 1 ))
        BUFFER=$line CURSOR=$#line
        zle list-choices
    done < $lines
    BUFFER=
    : > $folder/done
}
setopt extended_glob
zle -N ask-all
bindkey '^T' ask-all
: > $folder/ready
INNER
mkdir -p $folder/functions && cp $completion $folder/functions/_orgq
: > $folder/offered
export folder lines functions_folder=$folder/functions
zpty -b inner zsh -f -i
zpty -w inner "source $folder/inner"
# Waits for a file of the inner shell, ten minutes at most.
wait_for() {
    local k
    for k in {1..6000}; do
        [[ -e $folder/$1 ]] && return
        zpty -r -t inner said
        sleep 0.1
    done
    echo "zsh doesn't answer" >&2
    exit 2
}
wait_for ready
zpty -w -n inner $'\C-t'
wait_for done
zpty -d inner
cat $folder/offered
