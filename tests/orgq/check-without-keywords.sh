printf '* HOLD a\n* TODO b\n:PROPERTIES:\n:A: b' > bare.org
printf '#+TODO: A | B\n* HOLD a\n* A b\n' > own.org
