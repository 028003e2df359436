printf '* a\nSCHEDULED: <2024-02-01 Thu> and a word\nb\n' > a.org
