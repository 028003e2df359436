printf '* TODO One\n' > home.org
"$orgq" --at "2024-02-28 10:30" done home.org:1 > /dev/null
"$orgq" --at "2024-02-28 10:40" schedule work.org:2 fri > /dev/null
"$orgq" --at "2024-02-28 10:50" -f home.org add Two > /dev/null
