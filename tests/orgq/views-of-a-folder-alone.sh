export XDG_CONFIG_HOME=conf HOME=/home/ann
mkdir -p conf/orgq/views.d
printf '[b]\nshow = todo\n' > conf/orgq/views.d/more
