printf '* One\nCLOCK: [2024-02-28 Wed 9:45]\n* Two\n:LOGBOOK:\nCLOCK: [2024-02-27 Tue 23:00]\n:END:\n' > a.org
