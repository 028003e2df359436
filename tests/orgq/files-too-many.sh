mkdir many
i=100
while [ $i -lt 357 ]; do echo '* TODO a' > many/$i.org; i=$((i + 1)); done
