printf '* a\nSCHEDULED: <2024-02-01 Thu> * b\n' > a.org
