printf '* a\nSCHEDULED: [2024-02-01 Thu]--<2024-02-03 Sat> DEADLINE: <2024-02-02 Fri>\n' > a.org
