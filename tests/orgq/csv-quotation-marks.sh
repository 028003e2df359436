printf '#+CATEGORY: "x\n* TODO "a" "b\n' > quoted.org
