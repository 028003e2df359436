mkdir notes
printf "* TODO a\n" > notes/old.org
(sleep 2; printf "#+TODO: KEEP\n* KEEP c\n" > notes/new.org) &
