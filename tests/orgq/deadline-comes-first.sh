printf '* a\n  CLOSED: [2024-02-02 Fri 10:00] SCHEDULED: <2024-02-01 Thu>\n' > a.org
