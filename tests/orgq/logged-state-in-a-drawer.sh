printf '#+TODO: TODO WAIT(w@/!) | DONE\n#+STARTUP: logdrawer\n* TODO a\n  :LOGBOOK:\n  CLOCK: [2024-02-27 Tue 09:10]--[2024-02-27 Tue 10:40] =>  1:30\n  :END:\n' > a.org
