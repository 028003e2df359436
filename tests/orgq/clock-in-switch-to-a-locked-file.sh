printf '* One\n:LOGBOOK:\nCLOCK: [2024-02-28 Wed 9:45]\n:END:\n* Two\n' > a.org
printf '* Three\n' > b.org
ln -s 'ann@host.4711:1700000000' .#b.org
