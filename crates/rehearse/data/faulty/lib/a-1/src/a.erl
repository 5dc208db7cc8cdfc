-module(a).
-export([size/0]).
size() ->
  <<1>>.
