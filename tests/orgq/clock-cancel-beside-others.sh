printf '* One\n:LOGBOOK:\nCLOCK: [2024-02-28 Wed 9:45]\nCLOCK: [2024-02-27 Tue 10:00]--[2024-02-27 Tue 11:00] =>  1:00\n:END:\n' > a.org
