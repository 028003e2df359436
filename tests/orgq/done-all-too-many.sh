awk 'BEGIN { for (k = 0; k < 1001; k++) print "* TODO a" }' > a.org
