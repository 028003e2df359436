printf '* One\n* TODO Two\n  body\n' > a.org
ln -s 'ann@host.4711:1700000000' .#a.org
