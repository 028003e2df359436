export XDG_CONFIG_HOME=conf
mkdir -p conf/orgq
printf 'inbox home.org\nwords yes\nfile work.org\n' > conf/orgq/config
