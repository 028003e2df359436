printf '* One\nCLOCK: [2024-02-28 Wed 11:00]\n\n\n* Two\n' > a.org
