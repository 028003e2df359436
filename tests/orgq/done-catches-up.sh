printf '#+TODO: TODO NEXT | DONE\n* NEXT a\nSCHEDULED: <2024-02-05 Mon ++1w> DEADLINE: <2024-02-20 Tue>\nkept\n' > a.org
