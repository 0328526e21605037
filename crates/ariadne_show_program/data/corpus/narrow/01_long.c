struct s { int colour; };
int f(struct s *p, int first_argument_of_this_function, int second_argument_of_this_function, int third_argument) { return third_argument + p->color; }
	int g(struct s *p, int first_argument_of_this_function, int second_argument_of_this_function, int number_three, int third) { return "x" * third; }
