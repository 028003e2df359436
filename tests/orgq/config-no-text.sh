export XDG_CONFIG_HOME=conf
mkdir -p conf/orgq
printf 'file \377.org\n' > conf/orgq/config
