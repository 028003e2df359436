printf '* TODO Bins out\nDEADLINE: <2024-02-20 Tue +1w -9d>\n' > plan.org
