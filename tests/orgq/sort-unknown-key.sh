cat > day.org << 'END'
* A late talk <2024-02-28 Wed 16:00>
* No time <2024-02-28 Wed> :x:
* Early <2024-02-28 Wed 08:00-09:00> :x:
* Beta tomorrow <2024-02-29 Thu 09:00>
* Alpha tomorrow <2024-02-29 Thu 10:00>
END
