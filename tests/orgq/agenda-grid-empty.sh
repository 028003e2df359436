printf '* Nothing planned\n' > empty.org
