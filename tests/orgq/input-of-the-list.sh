printf -- '-\n' > files
mkdir -p "$XDG_CONFIG_HOME/orgq"
cp files "$XDG_CONFIG_HOME/orgq/files"
printf '* TODO of a file\n' > ./-
exec < home.org
