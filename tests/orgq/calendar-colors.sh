cat > plan.org <<'END'
* Stand-up <2024-02-26 Mon 09:15 +1d>
* Holiday of Ruth
<2024-02-26 Mon>--<2024-03-01 Fri>
* TODO Report on the second quarter
DEADLINE: <2024-02-28 Wed>
* DONE Post the form
DEADLINE: <2024-02-28 Wed>
* TODO Pay the rent
DEADLINE: <2024-02-20 Tue>
* TODO Renew the passport
DEADLINE: <2024-03-04 Mon>
END
for n in 1 2 3 4 5 6 7; do printf '* Word %s <2024-02-1%s>\n' $n $n > other$n.org; done
