mkdir agenda
printf '* TODO One\n* TODO Two\n' > agenda/a.org
