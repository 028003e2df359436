printf '* Only one <2024-03-08 Fri>\n' > dated.org
