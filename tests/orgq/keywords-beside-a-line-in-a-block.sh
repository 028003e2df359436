printf '#+BEGIN_SRC org\n#+TODO: A | B\n#+END_SRC\n* NEXT a\n* DONE b\n' > block.org
