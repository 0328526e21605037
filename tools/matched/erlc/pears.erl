-module(pears).
-export([weigh/1, light/0]).
weigh(Pear) ->
	Unused = 1,
    "e" ++ wieght(Pear).
