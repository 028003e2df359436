export XDG_CONFIG_HOME=conf HOME=/home/ann
mkdir -p conf/orgq
printf 'log-done time\nlog-into-drawer yes\n' > conf/orgq/config
printf '* TODO a\n' > a.org
