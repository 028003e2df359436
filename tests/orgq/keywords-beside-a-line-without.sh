printf '#+TODO: | \n* NEXT a\n* DONE b\n' > bare.org
