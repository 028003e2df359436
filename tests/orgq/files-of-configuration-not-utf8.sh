mkdir -p "$XDG_CONFIG_HOME/orgq"
printf 'home.org\n\377\n' > "$XDG_CONFIG_HOME/orgq/files"
