printf '* TODO a :later:\nSCHEDULED: <2024-02-27 Tue>\nb\n' > a.org
cp a.org before.org
for act in "tag a.org:1 +home --without later" "priority a.org:1 A" "property a.org:1 Effort=0:15" "note a.org:1 Called" "schedule a.org:1 then+1w" "set a.org:1 none"; do
    "$orgq" --at "2024-02-28 10:30" -q $act
done
