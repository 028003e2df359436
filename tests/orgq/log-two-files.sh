cat > a.org <<'END'
* Second at nine
CLOCK: [2024-02-28 Wed 09:00]--[2024-02-28 Wed 09:30]
* Behind
CLOCK: [2024-02-28 Wed 09:00]--[2024-02-28 Wed 08:00]
END
cat > b.org <<'END'
* First
CLOCK: [2024-02-28 Wed 08:59]--[2024-02-29 Thu 09:59]
* Last at nine
CLOCK: [2024-02-28 Wed 09:00]--[2024-02-28 Wed 09:01]
END
