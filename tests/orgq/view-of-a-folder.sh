export XDG_CONFIG_HOME=conf HOME=/home/ann
mkdir -p conf/orgq/views.d
printf '[a]\nshow = todo\n' > conf/orgq/views
printf '[c]\nshow = todo\n' > conf/orgq/views.d/20-more
printf '[b]\nabout = of a folder\nshow = todo --limit 1\n' > conf/orgq/views.d/10-work
printf 'no line\n' > conf/orgq/views.d/.hidden
printf 'no line\n' > conf/orgq/views.d/10-work~
mkdir conf/orgq/views.d/folder
