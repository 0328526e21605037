subroutine weigh(pears)
  implicit none
  integer, intent(in) :: pears
	integer :: unused
  print *, "é", pears + "one"
end subroutine
