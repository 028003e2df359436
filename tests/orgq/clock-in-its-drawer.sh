printf '* One\ntext\n  :logbook:\n  CLOCK: [2024-02-27 Tue 10:00]--[2024-02-27 Tue 11:00] =>  1:00\n  :END:\n' > a.org
