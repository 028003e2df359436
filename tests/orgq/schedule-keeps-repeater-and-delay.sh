printf '* TODO a\nSCHEDULED: <2024-02-01 Thu 10:00 +1w -2d>\n' > a.org
