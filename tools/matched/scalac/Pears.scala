object Pears {
  def weigh(pear: String): Int = pear
  def old: Int = { 1; 2 }
	val light = wieght
}
