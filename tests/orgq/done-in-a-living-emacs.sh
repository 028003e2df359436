host=$(cat /proc/sys/kernel/hostname)
printf '* TODO a\n' > a.org
ln -s "ann@$host.1:1700000000" .#a.org
