printf '#+TODO: A | B\n#+TODO: C | D E\n* C x\n' > a.org
