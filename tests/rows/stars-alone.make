# A file of 67,108,864 stars, as many bytes as a file may have: no heading, since no space follows them.
printf 'add a.org 67108864\n'
head -c 67108864 /dev/zero | tr '\0' '*'
printf 'todo\n'
