unset XDG_CONFIG_HOME
mkdir -p "$HOME/.config/orgq"
echo home.org > "$HOME/.config/orgq/files"
