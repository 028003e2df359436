printf '#+CATEGORY: c\033[1m\n* TODO A\342\200\256evil\033]0;x\007 end\nSCHEDULED: <2024-02-28 Wed>\n* <2024-02-28 Wed>\n* TODO\nSCHEDULED: <2024-02-28 Wed>\n* TODO ' > hostile.org
for n in 1 2 3 4 5 6 7 8 9 10 11 12 13 14 15 16 17 18 19 20 21 22 23 24 25 26 27 28 29 30; do printf '\346\274\242'; done >> hostile.org
printf '\nSCHEDULED: <2024-02-28 Wed>\n* TODO ' >> hostile.org
for n in 1 2 3 4 5 6 7 8 9 10 11 12 13 14 15 16 17 18 19 20 21 22 23 24 25 26 27 28 29 30; do printf '\360\237\221\251\342\200\215\360\237\221\247'; done >> hostile.org
printf '\nSCHEDULED: <2024-02-28 Wed>\n' >> hostile.org
