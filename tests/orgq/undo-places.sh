"$orgq" --at "2024-02-28 10:30" set work.org:2 WAIT > /dev/null
