export XDG_CONFIG_HOME=conf HOME=/home/ann
mkdir -p conf/orgq
printf '[a]\nshow = todo \377\n' > conf/orgq/views
