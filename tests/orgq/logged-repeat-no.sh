printf '* TODO a\nCLOSED: [2024-02-27 Tue 18:00] SCHEDULED: <2024-02-28 Wed +1d>\n  :PROPERTIES:\n  :LAST_REPEAT: [2024-02-26 Mon 09:00]\n  :Effort: 1:00\n  :END:\nkept\n' > a.org
