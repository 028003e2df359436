export XDG_CONFIG_HOME=conf HOME=/home/ann
mkdir -p conf/orgq
printf 'columns 100\nbackground light\n' > conf/orgq/config
