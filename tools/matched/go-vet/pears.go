package pears

import "fmt"

// Weigh tells a weight.
func Weigh(pear string) int {
	/* é */ fmt.Printf("%d\n", pear)
	return 1
	return 2
}
