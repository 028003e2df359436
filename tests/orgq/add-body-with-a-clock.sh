printf '* a\n' > a.org
printf 'CLOCK: [2024-02-28 Wed 10:00]\n' > body
exec < body
