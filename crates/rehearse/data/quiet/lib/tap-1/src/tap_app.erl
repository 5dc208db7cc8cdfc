-module(tap_app).
-export([init/1]).
init([]) -> {ok,{{one_for_one,1,1},
  [{tap,{tap,start_link,[]},permanent,1000,worker,[tap]}]}}.
