use strict;
use warnings;

my $apple = "one";
print $apple + 1, "\n";
die "no apples";
