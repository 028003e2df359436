mkdir h k
printf '* TODO Buy bulbs\n' > h/s.org
printf '* TODO Buy bulbs\n' > k/s.org
