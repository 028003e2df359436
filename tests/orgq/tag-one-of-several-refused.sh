printf '* a :x:\n* b :y: :x:\n' > a.org
