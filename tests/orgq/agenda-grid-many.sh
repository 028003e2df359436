for n in 1 2 3 4 5 6; do printf '* Talk %s <2024-02-29 Thu 09:%s0-10:00>\n' $n $((n - 1)); done > many.org
