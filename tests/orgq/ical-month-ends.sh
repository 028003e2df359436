printf '* Rent\nSCHEDULED: <2024-01-31 Wed +1m>\n' > m.org
