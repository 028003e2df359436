printf '* a\nb\n' > a.org
printf 'Called.\n\nNo answer.\n' > said
exec < said
