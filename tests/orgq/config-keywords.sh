export XDG_CONFIG_HOME=conf HOME=/home/ann
mkdir -p conf/orgq
cat > conf/orgq/config <<'TEXT'
keywords NEXT | GONE
TEXT
printf '* NEXT a\n* TODO b\n' > k.org
