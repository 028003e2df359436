printf '#+TODO: A B |\n* A x\n' > a.org
