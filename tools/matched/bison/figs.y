%token PEAR
%%
weigh: PEAR
  PEAR
	| /* é */ PEAR
	/* é */ PEAR
;
