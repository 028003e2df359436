printf '* One\n  SCHEDULED: <2024-02-28 Wed>\n  :PROPERTIES:\n  :A: b\n  :END:\nbody\n' > a.org
