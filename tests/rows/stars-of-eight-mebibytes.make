# A file of 8,388,608 stars: no heading, since no space follows them.
printf 'add a.org 8388608\n'
head -c 8388608 /dev/zero | tr '\0' '*'
printf 'todo\n'
