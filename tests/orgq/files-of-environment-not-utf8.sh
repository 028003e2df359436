mkdir -p "$XDG_CONFIG_HOME/orgq"
echo home.org > "$XDG_CONFIG_HOME/orgq/files"
ORGQ_FILES=$(printf '\377.org')
export ORGQ_FILES
