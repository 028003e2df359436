printf '* a\n  SCHEDULED: <2024-02-01 Thu> DEADLINE: <2024-02-02 Fri>\nb\n' > a.org
