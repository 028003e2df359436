cat > home.org <<'END'
* Holiday in Lisbon
<2024-03-14 Thu>--<2024-03-18 Mon>
* Dentist <2024-03-05 Tue 08:15>
* Choir
<2024-02-28 Wed 20:00-22:00 +1w>
* TODO [#A] Pay the energy bill :money:
DEADLINE: <2024-02-26 Mon>
* TODO Water the plants
SCHEDULED: <2024-02-28 Wed +3d>
* TODO Tax return :money:
SCHEDULED: <2024-02-28 Wed> DEADLINE: <2024-03-08 Fri>
* Concert at the town hall <2024-03-01 Fri 19:30>
END
cat > work.org <<'END'
#+TODO: TODO NEXT WAIT | DONE
* Stand-up
<2024-02-26 Mon 09:15-09:30 +1d>
* Interview: Ana <2024-02-28 Wed 11:00-12:00>
* Fair in Utrecht
<2024-03-06 Wed>--<2024-03-08 Fri>
* NEXT [#A] Send the offer :sales:
DEADLINE: <2024-02-28 Wed>
* TODO Read the applications :hiring:
SCHEDULED: <2024-02-28 Wed 14:00>
* WAIT Answers from the agency :hiring:
SCHEDULED: <2024-02-23 Fri>
* DONE Book the room
SCHEDULED: <2024-02-28 Wed>
* TODO Timesheet
DEADLINE: <2024-02-29 Thu +1m>
* Offsite with the Berlin team
<2024-03-20 Wed>--<2024-03-22 Fri>
END
cat > club.org <<'END'
* Training
<2024-02-27 Tue 18:30 +1w>
* Match at home <2024-03-09 Sat 15:00>
* TODO Order the shirts
DEADLINE: <2024-03-12 Tue>
END
