my $plum = (1 + ;
print "one" $plum;
