export XDG_CONFIG_HOME=conf HOME=/home/ann
mkdir -p conf/orgq/views.d
printf '[a]\nshow = todo\n' > conf/orgq/views
printf '[b]\nshow = done\n' > conf/orgq/views.d/more
