subroutine weigh(apple)
  implicit none
  integer, intent(in) :: apple
	integer :: unused
  print *, apple
end subroutine
