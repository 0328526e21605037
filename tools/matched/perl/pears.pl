use strict;
use warnings;

my $pear = "one";
my $weight = $pear + 1;
my $weight = 2;
print $wieght;
