-module(trunk).
-vsn("1").
-export([start/0, loop/1]).

start() ->
    P = spawn_link(?MODULE, loop, [0]),
    register(trunk, P),
    {ok, P}.

loop(N) ->
    receive
        code_switch -> ?MODULE:loop(N);
        {set,K} -> loop(K);
        {'$gen_call',From,get} -> gen_server:reply(From, N), loop(N)
    end.
