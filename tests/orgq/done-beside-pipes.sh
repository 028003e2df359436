printf '* TODO a\n' > a.org
mkfifo .a.org.swp .a.org.swo .#a.org
