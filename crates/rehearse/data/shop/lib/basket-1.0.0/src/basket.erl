%% A process in a loop function, with the prices of what was chosen. It goes on in the code in which it began.
-module(basket).
-export([start/0, loop/1]).

start() -> P = spawn_link(?MODULE, loop, [[]]), register(basket, P), {ok, P}.

loop(Prices) ->
    receive
        {add,Price} -> loop([Price|Prices]);
        clear -> loop([]);
        {'$gen_call',From,total} -> gen_server:reply(From, basket_rules:total(Prices)), loop(Prices)
    end.
