# A file of 67,108,864 bytes: no byte more goes in, by an edit or a completion, and the stream goes on; an announced payload
# that is longer stops it.
printf 'add a.org 67108864\n* x\n'
head -c 67108860 /dev/zero | tr '\0' 'y'
printf 'edit 1 a.org 1 0 0 1\nzcomplete 1 a.org 1 1 DONE\nedit 1 a.org 1 2 1 1\nzcomplete 1 a.org 1 1 DONE\ncomplete 1 a.org 2 2 DONE\nedit 1 a.org 2 0 4 0\nedit 1 a.org 3 0 0 67108865\n'
