%% A process in a loop function, with the prices of what was chosen. From this version on it changes over to new code, when it
%% is told to. The process of 1.0.0 has never heard of that.
-module(basket).
-export([start/0, loop/1]).

start() -> P = spawn_link(?MODULE, loop, [[]]), register(basket, P), {ok, P}.

loop(Prices) ->
    receive
        {add,Price} -> loop([Price|Prices]);
        clear -> loop([]);
        code_switch -> ?MODULE:loop(Prices);
        {'$gen_call',From,total} -> gen_server:reply(From, basket_rules:total(Prices)), loop(Prices);
        {'$gen_call',From,size} -> gen_server:reply(From, length(Prices)), loop(Prices)
    end.
