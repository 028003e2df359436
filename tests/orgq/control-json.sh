printf '#+CATEGORY: c\033[1m\n* TODO \033]0;owned\007\033[8mx\302\233y\177\r z \342\200\234q\n' > hostile.org
