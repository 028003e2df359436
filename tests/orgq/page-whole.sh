printf '* TODO Pay the rent\nDEADLINE: <2024-03-01 Fri>\n' > plan.org
