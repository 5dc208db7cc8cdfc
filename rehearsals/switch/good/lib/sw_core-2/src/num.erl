-module(num).
-vsn("2").
-export([prefix/1, zone/1]).

prefix(N) when N > 99 -> prefix(N div 10);
prefix(N) -> N.

zone(N) -> prefix(N).
