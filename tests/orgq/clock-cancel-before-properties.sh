printf '* One\n:LOGBOOK:\nCLOCK: [2024-02-28 Wed 9:45]\n:END:\n:PROPERTIES:\n:a: b\n:END:\n' > a.org
