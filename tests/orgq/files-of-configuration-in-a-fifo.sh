mkdir -p "$XDG_CONFIG_HOME/orgq"
mkfifo "$XDG_CONFIG_HOME/orgq/files"
