printf '* a\n  SCHEDULED: <2024-03-01 Fri>\nb\n' > a.org
