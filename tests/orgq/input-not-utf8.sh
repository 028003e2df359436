exec < latin/latin.org
