printf '* TODO a\nSCHEDULED: <2024-02-26 Mon +1d>\n' > a.org
printf '* TODO b\n  DEADLINE: <2024-02-19 Mon +1w>\n' > b.org
