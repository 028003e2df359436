printf '* a\nSCHEDULED: <2024-02-01 Thu> b\n:PROPERTIES:\n:x: y\n:END:\n' > a.org
