printf '* Gr\303\266\303\237e, L\303\244nge; H\303\266he \\ BEGIN:VEVENT und noch viele Umlaute \303\244\303\266\303\274\303\244\303\266\303\274\303\244\303\266\303\274\n<2024-02-28 Wed>\n' > long.org
printf '* a\r\033]0;x\007\302\233b\tc \342\202\254\n<2024-02-28 Wed>\n' >> long.org
