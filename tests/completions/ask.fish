# What fish offers at the end of each line of a file: "NUMBER<tab>WORD" for each word.
#     fish --no-config ask.fish COMPLETION LINES
source $argv[1]
set number 0
while read --local line
    set number (math $number + 1)
    for offer in (complete -C "$line")
        printf '%s\t%s\n' $number (string split -f1 \t -- $offer)
    end
end < $argv[2]
