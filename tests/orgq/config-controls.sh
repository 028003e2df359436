export XDG_CONFIG_HOME=conf
mkdir -p conf/orgq
printf 'keywords A\033[1m | B\r\n  file\t a b.org \r\n' > conf/orgq/config
