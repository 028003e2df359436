printf '* O\033[31mne\nCLOCK: [2024-02-28 Wed 9:45]\n' > a.org
