{ printf '* TODO Meet'; for n in $(seq 1 3000); do printf ' <2024-02-28 Wed>'; done; printf ' again\n'; } > plan.org
{ printf '* Call <2024-02-27 Tue>--<2024-02-28 Wed>'; for n in $(seq 0 599); do printf ' <2024-02-28 Wed %02d:%02d>' $((8 + n / 60)) $((n % 60)); done; printf '\n'; } > calls.org
