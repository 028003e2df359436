cat > plan.org <<'END'
* Early <2024-03-04 Mon 06:40-07:10>
* Review <2024-03-04 Mon 09:00-11:00>
* Call <2024-03-04 Mon 09:30-10:00>
* Lunch with the visitors from the other town <2024-03-04 Mon 10:45-13:00>
* Walk <2024-03-04 Mon 13:00>
* 会議 <2024-03-04 Mon 15:00-15:20>
* Concert <2024-03-04 Mon 20:15-19:00>
END
