printf '* TODO Buy bread\n* TODO Buy bulbs\n* TODO Buy batteries\n* TODO Buy tape\n' > s.org
for place in $("$orgq" -f s.org --format '{id}' todo | head -3); do
    "$orgq" --at "2024-02-28 10:30" -q -f s.org schedule "$place" fri
done
