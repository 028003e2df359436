printf '* DONE a\nCLOSED: [2024-02-27 Tue 18:00]\n' > a.org
