printf '* a\nSCHEDULED: <2024-02-01 Thu 09:30-10:00 +1w>\n' > a.org
