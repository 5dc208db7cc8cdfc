-module(lp).
-export([start/0,loop/1]).
start() -> P = spawn_link(?MODULE,loop,[0]), register(lp,P), {ok,P}.
loop(N) -> receive
  stop -> bye;
  code_switch -> ?MODULE:loop(N);
  {set,K} -> loop(K);
  {'$gen_call',F,get} -> gen_server:reply(F,N), loop(N)
  end.
