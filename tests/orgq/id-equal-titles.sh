printf '* TODO Call\nAnn\n* TODO Call\nBob\n* TODO Call\nCid\n' > e.org
"$orgq" --at "2024-02-28 10:30" -q -f e.org done mbsdx
