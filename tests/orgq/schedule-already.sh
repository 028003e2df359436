printf '* TODO a\nSCHEDULED: <2024-03-01 Fri>\n' > a.org
touch -d '2020-01-02 03:04' a.org
