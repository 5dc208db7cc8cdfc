-module(num).
-vsn("1").
-export([prefix/1]).

prefix(N) when N > 99 -> prefix(N div 10);
prefix(N) -> N.
