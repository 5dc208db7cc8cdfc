%% A process in a loop function, with the sum of what was paid.
-module(till_log).
-export([start/0, loop/1]).

start() -> P = spawn_link(?MODULE, loop, [0]), register(till_log, P), {ok, P}.

loop(Sum) ->
    receive
        {paid,N} -> loop(Sum + N);
        {'$gen_call',From,sum} -> gen_server:reply(From, Sum), loop(Sum)
    end.
