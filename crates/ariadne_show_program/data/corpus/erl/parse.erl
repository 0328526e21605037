-module(parse).
-export([f/0]).
f() -> case 1 of
    1 -> "漢" ok
end.
