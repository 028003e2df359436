cat > plan.org <<'END'
* 日本語の授業 <2024-02-28 Wed 18:30>
* TODO מכתב לסבתא
SCHEDULED: <2024-02-28 Wed>
* TODO اتصل بالبنك
DEADLINE: <2024-03-01 Fri>
* TODO Fête 🙂 ‮txet
DEADLINE: <2024-02-26 Mon>
END
printf '* TODO \033[31mRed\033[0m and \302\205 and \357\277\277\n' >> plan.org
