export XDG_CONFIG_HOME=conf HOME=/home/ann
mkdir -p conf/orgq
cat > conf/orgq/config <<'TEXT'
profile 2
TEXT
printf '# all\n\n  ~/a.org\n-\n' > conf/orgq/files
