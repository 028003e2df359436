printf '* TODO a\n:LOGBOOK:\nCLOCK: [2024-02-28 Wed 11:05]\n:END:\n' > a.org
