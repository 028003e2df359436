printf '* One\nCLOCK: [2024-02-28 Wed 9:45]\nDEADLINE: <2024-02-29 Thu>\n' > a.org
