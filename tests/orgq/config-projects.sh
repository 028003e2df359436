export XDG_CONFIG_HOME=conf HOME=/home/ann
mkdir -p conf/orgq
cat > conf/orgq/config <<'TEXT'
project LEVEL=1
next-action TODO="WAIT"
TEXT
