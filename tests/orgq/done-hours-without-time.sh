printf '* TODO a\nSCHEDULED: <2024-02-28 Wed +2h>\n' > a.org
