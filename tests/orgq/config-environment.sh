export XDG_CONFIG_HOME=conf HOME=/home/ann
mkdir -p conf/orgq
cat > conf/orgq/config <<'TEXT'
# my files
file ~/notes/home.org
file work.org

keywords TODO NEXT | DONE
color never
inherit area
TEXT
