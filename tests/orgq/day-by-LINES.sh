for n in 10 11 12 13 14 15 16 17 18 19; do printf '* TODO Late %s\nSCHEDULED: <2024-02-%s>\n' $n $n; done > late.org
for n in 1 2 3 4; do printf '* TODO Planned %s\nSCHEDULED: <2024-02-28>\n' $n; done >> late.org
