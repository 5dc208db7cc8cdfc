%% The basket of a customer: the code of 1.0.0, in other words and other lines of this comment,
%% with other blanks. So it is no other code, and no instruction loads it.
-module(basket).
-export([start/0, loop/1]).

start() ->
    P = spawn_link(?MODULE, loop, [[]]),    % rests in loop/1
    register(basket, P),
    {ok, P}.

loop(Prices) -> receive
    {add,Price} -> loop([Price|Prices]);
    clear -> loop([]);
    {'$gen_call',From,total} ->
        gen_server:reply(From, basket_rules:total(Prices)), loop(Prices)
  end.
