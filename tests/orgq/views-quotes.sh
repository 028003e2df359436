export XDG_CONFIG_HOME=conf HOME=/home/ann
mkdir -p conf/orgq
cat > conf/orgq/views <<'END'
[a]
show = search 'one "word"' two's words' "t\hree \\ \"four\"" '' -- '-|' "|"
END
