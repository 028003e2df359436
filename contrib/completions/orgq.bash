# SPDX-License-Identifier: Apache-2.0 OR MIT
# Completion of orgq for bash, from 4.4 on. Commands and options are those that the program's own help lists. What comes from a
# file, a folder or the command line is compared and never expanded: no `compgen -W`, no `eval`, no such word without quotes. What
# is put on the line is quoted here, and stays one word.

# The help of a command, and of it the commands, the arguments, the options, and those options that take a value.
_orgq_help() { orgq "$@" --help 2> /dev/null; }
_orgq_commands() { awk '/^Commands:/ { on = 1; next } /^$/ { on = 0 } on && /^  [a-z]/ { print $1 }' <<< "$1"; }
_orgq_arguments() { awk '/^Arguments:/ { on = 1; next } /^$/ { on = 0 } on && /^  [[<]/ { print $1 (/ none / ? "/none" : "") }' <<< "$1"; }
_orgq_options() { sed -n 's/^ *\(-[a-zA-Z]\), \(--[a-z-]*\).*/\1\n\2/p; s/^ *\(--[a-z-]*\).*/\1/p' <<< "$1"; }
_orgq_valued() { sed -n 's/^ *\(-[a-zA-Z]\), \(--[a-z-]*\) <.*/\1\n\2/p; s/^ *\(--[a-z-]*\) <.*/\1/p' <<< "$1"; }

# The words with which the line of an option ends, as in "auto, always or never", one a line.
_orgq_values() {
    sed -n "s/^.* $2 <[^>]*>.*: \(.* or [a-z]*\)\$/\1/p; s/^.* $2 <[^>]*>.*, \([0-9]* or [0-9]*\)\$/\1/p" <<< "$1" | sed 's/,//g; s/ or / /; s/ /\n/g'
}

# The names of all kinds of findings, as the program lists them where it refuses one, one a line.
_orgq_kinds() { orgq check --only '?' 2>&1 | sed 's/.*there are //; s/, /\n/g'; }

# Whether a word is among the lines of a text.
_orgq_among() { [[ $'\n'$2$'\n' == *$'\n'"$1"$'\n'* ]]; }

# The words up to the cursor as they were typed, into `typed`. Readline takes them apart at colons and the like.
_orgq_type() {
    local rest=${COMP_LINE:0:COMP_POINT} word k
    for ((k = 0; k <= COMP_CWORD; k++)); do
        word=${rest#"${rest%%[![:space:]]*}"}
        [ "$k" -eq "$COMP_CWORD" ] || word=${word:0:${#COMP_WORDS[k]}}
        if [ "$k" -eq 0 ] || [[ -z $rest || $rest == [[:space:]]* ]]; then
            typed+=("$word")
        else
            typed[-1]+=$word
        fi
        rest=${rest#"${rest%%[![:space:]]*}"}
        rest=${rest:${#word}}
    done
}

# What a word means as it was typed, into `meant`, and the quote that is open at its end, into `open`. It fails where the shell
# would expand something in it: nobody can know to what without doing it.
_orgq_read() {
    local rest=$1 c
    meant='' open=''
    while [ -n "$rest" ]; do
        c=${rest:0:1} rest=${rest:1}
        case $open$c in
            "''" | '""') open='' ;;
            \'?) meant+=$c ;;
            \"\\)
                case $rest in
                    [\$\`\"\\]*) meant+=${rest:0:1} rest=${rest:1} ;;
                    *) meant+=\\ ;;
                esac
                ;;
            \\) meant+=${rest:0:1} rest=${rest:1} ;;
            *[\$\`] | [\*\?\[\{]) return 1 ;;
            [\'\"]) open=$c ;;
            *) meant+=$c ;;
        esac
    done
    case $1 in '~'*) return 1 ;; esac
}

# A word as it can stand within the quotes that are `open`, into `quoted`. It fails where it can't: double quotes protect no mark of
# exclamation, and within quotes a control character would stand as it is.
_orgq_quote() {
    local rest=$1 c
    quoted=''
    if [[ $rest == *[[:cntrl:]]* ]]; then
        [ -z "$open" ] && printf -v quoted %q "$rest"
        return
    fi
    while [ -n "$rest" ]; do
        c=${rest:0:1} rest=${rest:1}
        case $open$c in
            "''") quoted+="'\\''" ;;
            \"!) return 1 ;;
            \"[\$\`\"\\]) quoted+=\\$c ;;
            [\'\"]?) quoted+=$c ;;
            [[:alnum:]_@%+,./-]) quoted+=$c ;;
            [[:punct:][:space:]]) quoted+=\\$c ;;
            *) quoted+=$c ;;
        esac
    done
}

# Files and folders that begin as the word that was typed, into `found`: of the files those that end in `$1`. `lead` is what stands
# before them on the line for the person's home, as the shell knows it.
_orgq_paths() {
    local meant open path
    case ${typed[-1]} in '~/'*) lead='~/' ;; esac
    # What has to be expanded first is readline's: it completes a variable or a pattern, and runs nothing.
    _orgq_read "${typed[-1]#"$lead"}" || { compopt -o default 2> /dev/null; return; }
    mapfile -d '' -t found < <(
        shopt -s nullglob
        shopt -u failglob dotglob nocaseglob
        set +f
        unset -v GLOBIGNORE
        for path in "${lead:+$HOME/}$meant"*; do
            if [ -d "$path" ]; then
                path+=/
            elif [[ $path != *"$1" ]]; then
                continue
            fi
            path=${path#"${lead:+$HOME/}"}
            # What begins with a minus would be an option.
            case $lead$path in -*) path=./$path ;; esac
            printf '%s\0' "$path"
        done
    )
    compopt -o filenames -o noquote 2> /dev/null
    case ${#found[@]}${found[0]-} in 1*/) compopt -o nospace 2> /dev/null ;; esac
}

# The keywords or the tags of the files, into `found`. What begins with a minus would be an option; no argument holds a NUL.
_orgq_listed() {
    local word words
    mapfile -t words < <(orgq "$1" 2> /dev/null | tr '\000' '\001')
    for word in "${words[@]}"; do
        case $word in '' | -* | *$'\001'*) ;; *) found+=("$word") ;; esac
    done
}

# The names of the views, into `found`.
_orgq_views() {
    mapfile -t found < <(orgq views 2> /dev/null | sed -n 's/^\([a-z][a-z0-9-]*\) .*/\1/p')
}

# The short ids of the open headings of the files, into `found`, each once, and their titles, into `titles`. In a title the program
# itself writes control characters so that they can be seen.
_orgq_headings() {
    local line
    while IFS= read -r line; do
        [ -z "${titles[${line%% *}]+known}" ] || continue
        found+=("${line%% *}")
        titles[${line%% *}]=${line#* }
    done < <(orgq todo --format '{id} {title}' 2> /dev/null | grep -a '^[a-z2-9]\{4,12\} ')
}

# Puts titles behind ids, where the shell only lists them: several, which have no title in common. What it may put on the line stays an
# id alone.
_orgq_title() {
    local k
    case ${#COMPREPLY[@]}/${COMP_TYPE-} in [01]/*) return ;; */9 | */33 | */63 | */64) ;; *) return ;; esac
    for k in "${!COMPREPLY[@]}"; do
        [ -z "${titles[${COMPREPLY[k]}]+known}" ] || COMPREPLY[k]+="  ${titles[${COMPREPLY[k]}]}"
    done
}

# Offers those of `found` that begin as the word that was typed; `$1` is the part of it that readline replaces.
_orgq_offer() {
    local meant open quoted whole word front=${typed[-1]%"$1"} odd=()
    _orgq_read "${typed[-1]#"$lead"}" || return
    whole=$meant
    _orgq_read "${front#"$lead"}"
    [ -z "$front" ] || lead=''
    for word in "${found[@]}"; do
        [[ $word == "$whole"* ]] && _orgq_quote "${word#"$meant"}" || continue
        # `$'..'` shows control characters by their numbers. What two such words have in common is no word to go on from.
        case $quoted in "\$'"*) odd+=("$lead$quoted") ;; *) COMPREPLY+=("$lead$quoted") ;; esac
    done
    [ ${#odd[@]} -ne 1 ] || COMPREPLY+=("${odd[@]}")
}

# Whether a word that isn't an option's value is one of the commands of the help; then the help is that command's.
_orgq_enter() {
    [ "$1" != help ] && _orgq_among "$1" "$(_orgq_commands "$help")" || return
    above+=("$1")
    help=$(_orgq_help "${above[@]}")
}

# What may stand behind an option that takes a value, into `found`.
_orgq_behind() {
    local front kinds
    case $1 in
        -f | --file | --inbox | -o | --output | --under) _orgq_paths '' ;;
        --only | --not)
            # A list, with commas between.
            case ${typed[-1]} in *,*) front=${typed[-1]%,*}, ;; *) front='' ;; esac
            mapfile -t kinds < <(_orgq_kinds)
            found=("${kinds[@]/#/"$front"}")
            ;;
        --from | --to) found=("${days[@]}" "${blocks[@]}") ;;
        --scheduled | --deadline) found=("${days[@]}") ;;
        --tag | --without) _orgq_listed tags ;;
        -t | --todo | --keyword) _orgq_listed keywords ;;
        *) mapfile -t found < <(_orgq_values "$help" "$1") ;;
    esac
}

# What may stand as the argument of this place of the present command, beside its commands, into `found`.
_orgq_argument() {
    local arguments name
    mapfile -t found < <(_orgq_commands "$help")
    mapfile -t arguments < <(_orgq_arguments "$help")
    name=${arguments[place]-}
    # The last argument may stand several times.
    [ -n "$name" ] || case "${arguments[*]: -1}" in *...) name=${arguments[-1]} ;; esac
    case $name in
        *DATE*none) found+=("${days[@]}" none) ;;
        *DATE* | *BLOCK*) found+=("${days[@]}" "${blocks[@]}") ;;
        *VIEW*) found+=(month week year "${days[@]}" "${blocks[@]}") ;;
        *KEYWORD*) _orgq_listed keywords ;;
        *NAME*) _orgq_views ;;
        *SHELL*) found+=(bash fish zsh) ;;
        *PLACE* | *MORE*)
            _orgq_headings
            return 1
            ;;
        *FILE* | *PATH*) return 1 ;;
    esac
    # Where more headings may follow, the next one may stand in place of what the first one gets.
    case "${arguments[*]: -1}" in *MORE*) return 1 ;; esac
}

_orgq() {
    local days=(today tomorrow yesterday mon tue wed thu fri sat sun)
    local blocks=(thisweek lastweek nextweek thismonth lastmonth nextmonth thisyear lastyear nextyear)
    local typed=() above=() found=() lead='' valued='' place=0 part help
    local -A titles=()
    COMPREPLY=()
    _orgq_type
    help=$(_orgq_help)
    for part in "${typed[@]:1:${#typed[@]}-2}"; do
        if [ -n "$valued" ]; then
            valued=''
        elif _orgq_among "$part" "$(_orgq_valued "$help")"; then
            valued=$part
        elif _orgq_enter "$part"; then
            place=0
        else
            case $part in -*) ;; *) place=$((place + 1)) ;; esac
        fi
    done
    if [ -n "$valued" ]; then
        _orgq_behind "$valued"
        _orgq_offer "$2"
        return
    fi
    # Options are offered behind a minus alone.
    case ${typed[-1]} in
        -*) mapfile -t found < <(_orgq_options "$help") ;;
        *)
            if ! _orgq_argument; then
                _orgq_offer "$2"
                [ ${#COMPREPLY[@]} -eq 0 ] || { _orgq_title; return 0; }
                _orgq_paths .org
            fi
            ;;
    esac
    _orgq_offer "$2"
}
complete -F _orgq orgq
