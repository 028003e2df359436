printf '* TODO Pay\n' > plan.org
"$orgq" --at '2024-02-27 10:30' -f plan.org page -o page.html
chmod 640 page.html
