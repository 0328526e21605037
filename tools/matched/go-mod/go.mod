module pears

go 1.19
pear v1
