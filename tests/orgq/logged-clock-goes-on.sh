printf '#+TODO: TODO WAIT | DONE\n* TODO a\n:LOGBOOK:\nCLOCK: [2024-02-28 Wed 09:05]\n:END:\n' > a.org
