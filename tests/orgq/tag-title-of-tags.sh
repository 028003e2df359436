printf '* a :b: :c:\n' > a.org
