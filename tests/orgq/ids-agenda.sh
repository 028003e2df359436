printf '* TODO Write\nSCHEDULED: <2024-02-28 Wed>\n* Other\n' > a.org
