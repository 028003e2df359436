# A file of 8,374,275 bytes: headings of the levels 1 to 4,090, each only its stars and a space.
awk 'BEGIN {
    print "add a.org 8374275"
    for (level = 1; level <= 4090; level++) {
        stars = stars "*"
        print stars " "
    }
    print "match LEVEL=4090"
}'
