object Apples {
  def weigh: Int = math.max("one", 1)
  case object Light extends Weight
}
