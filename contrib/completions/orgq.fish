# SPDX-License-Identifier: Apache-2.0 OR MIT
# Completion of orgq for fish. Commands and options are those that the program's own help lists. fish itself quotes what it puts on
# the line; what it would write raw, or take apart, isn't offered.

# Of a help text the commands, each with what it does behind a tab.
function _orgq_commands
    printf '%s\n' $argv | awk '/^Commands:/ { on = 1; next } /^$/ { on = 0 } on && /^  [a-z]/ { name = $1; sub(/^ *[^ ]* */, ""); print name "\t" $0 }'
end

# The options, each with what it does; and those that take a value.
function _orgq_options
    printf '%s\n' $argv | string replace -rf '^ *(?:(-\w), )?(--[a-z-]+)(?: <[^>]*>)? +(.*)$' '$1 $2\t$3' | while read --local --delimiter \t names does
        for name in (string split -n ' ' -- $names)
            printf '%s\t%s\n' $name $does
        end
    end
end
function _orgq_valued
    printf '%s\n' $argv | string replace -rf '^ *(?:(-\w), )?(--[a-z-]+) <.*$' '$1 $2' | string split -n ' '
end

# The words with which the line of an option ends, as in "auto, always or never".
function _orgq_values
    set -l does (printf '%s\n' $argv[2..] | string match -re " $argv[1] <")
    string match -rg '(?:: |, )([a-z0-9, ]+) or ([a-z0-9]+)$' -- (string replace -r '.*: ' ': ' -- $does[1]) | string split -n ', '
end

# The names of all kinds of findings, as the program lists them where it refuses one.
function _orgq_kinds
    orgq check --only '?' 2>&1 | string replace -r '.*there are ' '' | string split ', '
end

# The keywords or the tags of the files. What begins with a minus would be an option; no argument holds a NUL.
function _orgq_listed
    orgq $argv[1] 2> /dev/null | tr '\000' '\001' | string match -rv '^-|[\x01-\x1f\x7f-\x{9f}]'
end

# The names of the views, with what each is for behind a tab, in which the program itself writes control characters so that they
# can be seen.
function _orgq_views
    orgq --color always views 2> /dev/null | string replace -rf '^([a-z][a-z0-9-]*) +' '$1\t'
end

# The open headings of the files by their short ids, with their titles behind a tab, in which the program itself writes control
# characters so that they can be seen.
function _orgq_headings
    orgq todo --format '{id} {title}' 2> /dev/null | string replace -rf '^([a-z2-9]{4,12}) ' '$1\t'
end

# Files and folders that begin as the word at the cursor, its quotes taken away.
function _orgq_paths
    set -l token (commandline -ct)
    set -l front (string unescape -- $token)
    set -l home ''
    set -l lead ''
    if string match -q -- '~/*' $token
        set home $HOME/
        set lead '~/'
        set front (string sub -s 3 -- $front)
    end
    set -l paths $home$front*
    # What has to be expanded first is fish's own: it completes a variable, and runs nothing.
    if not set -q paths[1]
        __fish_complete_path $token
        return
    end
    for path in $paths
        string match -qr '[\t\n\x{80}-\x{9f}]' -- $path; and continue
        set -l shown $lead(string sub -s (math 1 + (string length -- $home)) -- $path)
        test -d $path; and set shown $shown/
        # What begins with a minus would be an option.
        string match -q -- '-*' $shown; and set shown ./$shown
        printf '%s\n' $shown
    end
end

# What may stand at the end of the line.
function _orgq_offers
    set -l days today tomorrow yesterday mon tue wed thu fri sat sun
    set -l blocks thisweek lastweek nextweek thismonth lastmonth nextmonth thisyear lastyear nextyear
    set -l above
    set -l place 1
    set -l help (orgq --help 2> /dev/null)
    set -l valued
    for part in (commandline -opc)[2..]
        if set -q valued[1]
            set valued
        else if contains -- $part (_orgq_valued $help)
            set valued $part
        else if test $part != help; and contains -- $part (_orgq_commands $help | string replace -r '\t.*' '')
            set -a above $part
            set place 1
            set help (orgq $above --help 2> /dev/null)
        else if not string match -q -- '-*' $part
            set place (math $place + 1)
        end
    end
    if set -q valued[1]
        switch $valued
            case -f --file --inbox -o --output --under
                _orgq_paths
            case --only --not
                __fish_complete_list , _orgq_kinds
            case --from --to
                printf '%s\n' $days $blocks
            case --scheduled --deadline
                printf '%s\n' $days
            case --tag --without
                _orgq_listed tags
            case -t --todo --keyword
                _orgq_listed keywords
            case '*'
                _orgq_values $valued $help
        end
        return
    end
    # Options are offered behind a minus alone.
    if string match -q -- '-*' (commandline -ct)
        _orgq_options $help
        return
    end
    _orgq_commands $help
    set -l arguments (printf '%s\n' $help | awk '/^Arguments:/ { on = 1; next } /^$/ { on = 0 } on && /^  [[<]/ { print $1 (/ none / ? "/none" : "") }')
    # The last argument may stand several times.
    set -l name $arguments[$place]
    if not set -q name[1]; and string match -q -- '*...' $arguments[-1]
        set name $arguments[-1]
    end
    switch "$name"
        case '*DATE*none'
            printf '%s\n' $days none
        case '*DATE*' '*BLOCK*'
            printf '%s\n' $days $blocks
        case '*VIEW*'
            printf '%s\n' month week year $days $blocks
        case '*KEYWORD*'
            _orgq_listed keywords
        case '*NAME*'
            _orgq_views
        case '*SHELL*'
            printf '%s\n' bash fish zsh
        case '*PLACE*' '*MORE*'
            _orgq_headings
            _orgq_paths
        case '*FILE*' '*PATH*'
            _orgq_paths
    end
end
complete -c orgq -f -a '(_orgq_offers)'
