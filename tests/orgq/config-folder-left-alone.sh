export XDG_CONFIG_HOME=conf
mkdir -p conf/orgq/config
