printf '* a\nSCHEDULED: <2024-02-01 Thu>--<2024-02-03 Sat> x\n' > a.org
