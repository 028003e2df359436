printf '* word word word word word word word word word word word word word word word word word word word word end\n' > a.org
