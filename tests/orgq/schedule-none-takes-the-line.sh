printf '* a\nSCHEDULED: <2024-02-01 Thu>\nb\n' > a.org
