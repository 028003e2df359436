export XDG_CONFIG_HOME=conf HOME=/home/ann
mkdir -p conf/orgq
cat > conf/orgq/views <<'END'
[calls]
show = match work/DONE
show = clocks 2024-02
END
