. "$here/orgq/day-80.sh"
mkdir -p "$XDG_CONFIG_HOME/orgq"
printf 'columns 60\nbackground light\n' > "$XDG_CONFIG_HOME/orgq/config"
