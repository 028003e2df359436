printf '* a\nSCHEDULED: <2024-03-01 Fri>\n* b\nSCHEDULED: <2024-03-02 Sat +1w>\n' > a.org
