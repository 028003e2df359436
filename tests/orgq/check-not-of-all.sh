printf '* TODO a\n# <2024-02-09 Fri>\n: <2024-02-30>\n<2024-02-09 Thu>\n* DONE b\nSCHEDULED: <2024-02-09 Fri +1w>\n' > few.org
