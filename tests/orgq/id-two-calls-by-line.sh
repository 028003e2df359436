printf '* TODO Buy bread\n* TODO Buy bulbs\n* TODO Buy batteries\n* TODO Buy tape\n' > s.org
"$orgq" --at "2024-02-28 10:30" -q schedule s.org:1@rdk44 fri
