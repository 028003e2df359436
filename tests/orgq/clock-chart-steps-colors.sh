for file in a b c; do
    printf '* Heading of %s\nCLOCK: [2024-02-27 Tue 09:00]--[2024-02-27 Tue 10:00]\n' "$file" > "$file.org"
done
printf '* Long day\nCLOCK: [2024-02-28 Wed 08:00]--[2024-02-28 Wed 08:01]\n' > d.org
