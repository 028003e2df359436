printf '* a\nb' > a.org
