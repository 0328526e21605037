-module(wrong).
-export([f/1, missing/0]).
f(X) -> Y = 1, Z.
	g(漢) -> "漢字", U, {a,
    b}.
