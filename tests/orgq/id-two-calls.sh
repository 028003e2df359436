printf '* TODO Buy bread\n* TODO Buy bulbs\n* TODO Buy batteries\n* TODO Buy tape\n' > s.org
"$orgq" --at "2024-02-28 10:30" -q -f s.org schedule rdk44 fri
