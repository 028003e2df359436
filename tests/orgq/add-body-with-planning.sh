printf '* a\n' > a.org
printf 'DEADLINE: <2024-02-28 Wed>\n' > body
exec < body
