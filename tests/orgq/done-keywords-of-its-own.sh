printf '#+TODO: A | B\n* A a\n' > a.org
