printf '* TODO Buy bread\n* TODO Buy bulbs\n* TODO Buy batteries\n* TODO Buy tape\n' > s.org
for place in $("$orgq" -f s.org -n -i todo | head -3 | cut -d: -f1,2); do
    "$orgq" --at "2024-02-28 10:30" -q schedule "$place" fri
done
