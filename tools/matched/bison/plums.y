%token <pair> PLUM
%%
plum:
  PLUM
| /* é */ plum PLUM { $<x>$ = $1; }
	| PLUM
;
dead: PLUM;
