printf '* a\n' > a.org
printf '#+begin_src\nc\nCLOCK: [2024-02-28 Wed 10:00]\n#+end_src\n' > body
exec < body
