printf '* TODO Tax\nDEADLINE: <2024-02-28 Wed>\n* DONE Paid\nDEADLINE: <2024-02-28 Wed>\n* Fee\nDEADLINE: <2024-02-28 Wed>\n' > due.org
