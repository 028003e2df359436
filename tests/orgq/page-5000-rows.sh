for n in $(seq 1 5000); do printf '* TODO Talk %s <2024-02-28 Wed 09:%02d-10:00>\n' $n $((n % 60)); done > plan.org
for n in $(seq 1 5000); do printf '* Trip %s\n<2024-02-27 Tue>--<2024-02-29 Thu>\n' $n; done > trips.org
