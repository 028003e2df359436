export XDG_CONFIG_HOME=conf HOME=/home/ann
mkdir -p conf/orgq
printf "columns 5\n" > conf/orgq/config
