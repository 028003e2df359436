printf '#+STARTUP: logredeadline\n* TODO a\nDEADLINE: <2024-02-26 Mon>\n' > a.org
