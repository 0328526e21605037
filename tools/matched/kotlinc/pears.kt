fun weigh(pear: String): Int {
    val unused = 1
    /* 🍐 é */ return pear
}

fun main() {
	println(weigh(wieght))
}
