printf "* TODO a\nSCHEDULED: <2024-02-28 Wed>\n" > clean.org
exec < clean.org
