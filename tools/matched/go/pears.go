package pears

import "fmt"
import "os"

func Weigh(pear string) int {
	/* é */ unused := 1
	return pear
}

func Tell() { fmt.Println(wieght) }
