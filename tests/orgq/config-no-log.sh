export XDG_CONFIG_HOME=conf HOME=/home/ann
mkdir -p conf/orgq
printf 'log-done always\n' > conf/orgq/config
printf '* TODO a\n' > a.org
