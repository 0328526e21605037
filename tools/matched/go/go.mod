module pears

go 1.19
