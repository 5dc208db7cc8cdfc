%% Counts the items on the shelf, and those that were sold, and knows how few are too few: {stock,Count,Sold,Low}.
-module(stock_server).
-vsn("1.1.0").
-behaviour(gen_server).
-export([start_link/0, init/1, handle_call/3, handle_cast/2, code_change/3]).

start_link() -> gen_server:start_link({local,stock}, ?MODULE, [], []).

init([]) -> {ok, {stock,10,0,2}}.

handle_call(count, _From, {stock,Count,Sold,Low}) ->
    {reply, Count, {stock,Count,Sold,Low}};
handle_call(report, _From, {stock,Count,Sold,Low}) ->
    {reply, stock_report:line(Count, Sold, Low), {stock,Count,Sold,Low}};
handle_call({sell,N}, _From, {stock,Count,Sold,Low}) when is_integer(N), N > 0, N =< Count ->
    {reply, ok, {stock,Count - N,Sold + N,Low}};
handle_call({sell,_N}, _From, S) ->
    {reply, sold_out, S}.

handle_cast({back,N}, {stock,Count,Sold,Low}) -> {noreply, {stock,Count + N,Sold - N,Low}};
handle_cast({restock,N}, {stock,Count,Sold,Low}) -> {noreply, {stock,Count + N,Sold,Low}}.

code_change({down,_Vsn}, {stock,Count,Sold,_Low}, _Extra) -> {ok, {stock,Count,Sold}};
code_change(_Vsn, {stock,Count,Sold}, _Extra) -> {ok, {stock,Count,Sold,2}}.
