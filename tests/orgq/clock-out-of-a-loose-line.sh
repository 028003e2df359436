printf '* One\ntext\n CLOCK: [2023-11-20 Mon 08:00] kept\r\n' > a.org
