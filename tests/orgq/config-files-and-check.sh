export XDG_CONFIG_HOME=conf HOME=/home/ann
mkdir -p conf/orgq
cat > conf/orgq/config <<'TEXT'
file other.org
TEXT
printf '* TODO a\n\nDEADLINE: <2024-03-01 Fri>\n' > bad.org; cp bad.org other.org
