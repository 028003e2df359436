printf '* a\nSCHEDULED: <2024-02-01 Thu 8:00>\n' > a.org
