cat > plan.org <<'END'
#+TODO: TODO NEXT | DONE
* Stand-up <2024-02-26 Mon 09:15 +1d>
* Holiday of Ruth
<2024-02-26 Mon>--<2024-03-01 Fri>
* Course
<2024-02-29 Thu>--<2024-03-05 Tue>
* TODO [#A] Report on the second quarter :work:
DEADLINE: <2024-02-28 Wed>
CLOCK: [2024-02-27 Tue 23:30]--[2024-02-28 Wed 01:00]
CLOCK: [2024-02-28 Wed 09:30]--[2024-02-28 Wed 10:15]
* TODO Call Mrs Okafor about the licence <v2>
SCHEDULED: <2024-02-28 Wed 14:00>
* DONE Water the plants
SCHEDULED: <2024-02-28 Wed>
* TODO Pay the rent
DEADLINE: <2024-02-20 Tue>
* TODO Answer the letter
SCHEDULED: <2024-02-19 Mon>
* TODO Renew the passport
DEADLINE: <2024-03-09 Sat>
* TODO Send the parcel
DEADLINE: <2024-03-04 Mon>
* NEXT Read the draft
* Call <2024-02-28 Wed 09:30-10:30>
* <2024-02-28 Wed 16:00-17:00>
* Concert <2024-02-28 Wed 20:00> with Sipho
END
