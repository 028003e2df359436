export XDG_CONFIG_HOME=conf HOME=/home/ann
mkdir -p conf/orgq
cat > conf/orgq/views <<'END'
# what is asked each day
[morning]
about = what today asks of me
show = agenda today
show = todo NEXT --limit 5 --title Next
show = search offer --title "Where \"offer\" stands"

[calls]
empty = hide
show = match work/DONE
show = clocks 2024-02
END
