printf '* a\n<2024-02-30>\n' > notes
