printf '#+TODO: TODO NEXT | DONE\n* NEXT a\n' > a.org
touch -d '2020-01-02 03:04' a.org
