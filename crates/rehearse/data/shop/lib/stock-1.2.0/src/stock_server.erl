%% Counts the items on the shelf: {shelf,Count}. What was sold is asked of the till now.
-module(stock_server).
-vsn("1.2.0").
-behaviour(gen_server).
-export([start_link/0, init/1, handle_call/3, handle_cast/2, code_change/3]).

start_link() -> gen_server:start_link({local,stock}, ?MODULE, [], []).

init([]) -> {ok, {shelf,10}}.

handle_call(count, _From, {shelf,Count}) ->
    {reply, Count, {shelf,Count}};
handle_call(report, _From, {shelf,Count}) ->
    {reply, {stock_report:line(Count, 0),stock_audit:check(Count)}, {shelf,Count}};
handle_call({sell,N}, _From, {shelf,Count}) when is_integer(N), N > 0, N =< Count ->
    {reply, ok, {shelf,Count - N}};
handle_call({sell,_N}, _From, S) ->
    {reply, sold_out, S}.

handle_cast({back,N}, {shelf,Count}) -> {noreply, {shelf,Count + N}};
handle_cast({restock,N}, {shelf,Count}) -> {noreply, {shelf,Count + N}}.

%% Down, what was sold is 0, whatever it was before the way up: no inverse where something was sold.
code_change({down,_Vsn}, {shelf,Count}, _Extra) -> {ok, {stock,Count,0}};
code_change(_Vsn, {stock,Count,_Sold}, _Extra) -> {ok, {shelf,Count}}.
