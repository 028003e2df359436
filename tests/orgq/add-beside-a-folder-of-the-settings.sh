export XDG_CONFIG_HOME=conf HOME=/home/ann
mkdir -p conf/orgq folder
printf 'file folder\n' > conf/orgq/config
