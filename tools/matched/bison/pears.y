%token PEAR
%token PEAR
%%
weigh: PEAR { $$ = $3; }
	| PEAR apple
     | /* é */ PEAR light
     ;
