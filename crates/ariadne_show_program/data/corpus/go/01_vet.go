package main

type point struct {
	x int `json:"x`
}

func main() {
	grüße := "🍐"
	i := len(grüße)
	/* 漢字 */ i = i
	if i != 1 || i != 2 {
		return
	}
	p := point{x: i}
	println(p.x << 64)
	return
	println("nie")
}
