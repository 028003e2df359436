awk 'BEGIN { for (k = 0; k < 1000; k++) print "* TODO a" }' > a.org
