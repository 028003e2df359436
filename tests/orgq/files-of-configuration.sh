mkdir -p "$XDG_CONFIG_HOME/orgq" "$HOME/org"
cp home.org "$HOME/org/"
printf '# mine\n\n~/org\n  work.org\n' > "$XDG_CONFIG_HOME/orgq/files"
