printf '* TODO Buy bread\n* TODO Buy bulbs\n* TODO Buy batteries\n* TODO Buy tape\n' > s.org
ln -s s.org l.org
