# What bash offers at the end of each line of a file: "NUMBER<tab>WORD" for each word.
#     bash ask.bash COMPLETION LINES
. "$1"
# `complete -o filenames -F FUNCTION orgq`
function=$(complete -p orgq | sed 's/.* -F \([^ ]*\) .*/\1/')
number=0
while IFS= read -r line; do
    number=$((number + 1))
    COMP_LINE=$line COMP_POINT=${#line}
    read -ra COMP_WORDS <<< "$line"
    case $line in *' ') COMP_WORDS+=("") ;; esac
    COMP_CWORD=$((${#COMP_WORDS[@]} - 1))
    COMPREPLY=()
    "$function" orgq "${COMP_WORDS[COMP_CWORD]}" "${COMP_WORDS[COMP_CWORD - 1]}"
    for word in "${COMPREPLY[@]}"; do
        printf '%s\t%s\n' "$number" "$word"
    done
done < "$2"
