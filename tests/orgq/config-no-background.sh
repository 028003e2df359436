export XDG_CONFIG_HOME=conf HOME=/home/ann
mkdir -p conf/orgq
printf "background blue\n" > conf/orgq/config
