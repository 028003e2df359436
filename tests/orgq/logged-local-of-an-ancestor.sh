printf '* a\n:PROPERTIES:\n:LOGGING: DONE(!)\n:END:\n* b\n** TODO c\n* d\n:PROPERTIES:\n:LOGGING: DONE(!)\n:END:\n** TODO e\n' > a.org
