print "1..2\nok 1 - first\n"; die "gone";
