export XDG_CONFIG_HOME=conf HOME=/home/ann
mkdir -p conf/orgq
cat > conf/orgq/config <<'TEXT'
color red
TEXT
