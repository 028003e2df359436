printf '* a :x:\n* b\n** c :home:x:\n' > a.org
