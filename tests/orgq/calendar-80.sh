cat > plan.org <<'END'
* Stand-up <2024-02-26 Mon 09:15 +1d>
* Holiday of Ruth
<2024-02-26 Mon>--<2024-03-01 Fri>
* Fair in the old town hall
<2024-02-22 Thu>--<2024-02-27 Tue>
* Course
<2024-03-01 Fri>--<2024-03-05 Tue>
* TODO [#A] Report on the second quarter :work:
DEADLINE: <2024-02-28 Wed>
* TODO Call Mrs Okafor about the licence <v2>
SCHEDULED: <2024-02-28 Wed 14:00>
* DONE Water the plants
SCHEDULED: <2024-02-27 Tue>
* TODO Pay the rent
DEADLINE: <2024-02-20 Tue>
* TODO Answer the letter
SCHEDULED: <2024-02-19 Mon>
* TODO Renew the passport
DEADLINE: <2024-03-04 Mon>
* 日本語の授業 <2024-02-13 Tue 18:30>
* מכתב לסבתא <2024-02-14 Wed>
* <2024-02-15 Thu 10:00>
* Concert <2024-02-28 Wed 20:00> with Sipho
* Dentist <2024-02-28 Wed 08:15>
* Swimming <2024-02-28 Wed 06:30>
END
