printf '* One\n#+BEGIN_EXAMPLE\n:LOGBOOK:\nCLOCK: [2024-02-28 Wed 9:00]\n:END:\n#+END_EXAMPLE\n' > a.org
