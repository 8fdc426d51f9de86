BEGIN { while (1) print "a line" }
