printf '* Plan [1/2]\n** TODO Water <2024-03-12 Tue +1w> plants\n' > p.org
