export XDG_CONFIG_HOME=conf HOME=/home/ann
mkdir -p conf/orgq folder
printf '* One\n' > a.org
printf 'file a.org\n' > conf/orgq/config
