printf '* One\ntext\nCLOCK: [2024-02-28 Wed 9:45]\nmore\n' > a.org
