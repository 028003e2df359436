printf '* One' > a.org
