printf '* a\nSCHEDULED: <2024-02-01 Thu +1w>\n' > a.org
