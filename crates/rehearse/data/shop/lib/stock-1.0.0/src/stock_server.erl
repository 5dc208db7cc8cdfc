%% Counts the items on the shelf, and those that were sold: {stock,Count,Sold}.
-module(stock_server).
-vsn("1.0.0").
-behaviour(gen_server).
-export([start_link/0, init/1, handle_call/3, handle_cast/2]).

start_link() -> gen_server:start_link({local,stock}, ?MODULE, [], []).

init([]) -> {ok, {stock,10,0}}.

handle_call(count, _From, {stock,Count,Sold}) ->
    {reply, Count, {stock,Count,Sold}};
handle_call(report, _From, {stock,Count,Sold}) ->
    {reply, stock_report:line(Count, Sold), {stock,Count,Sold}};
handle_call({sell,N}, _From, {stock,Count,Sold}) when is_integer(N), N > 0, N =< Count ->
    {reply, ok, {stock,Count - N,Sold + N}};
handle_call({sell,_N}, _From, S) ->
    {reply, sold_out, S}.

handle_cast({back,N}, {stock,Count,Sold}) -> {noreply, {stock,Count + N,Sold - N}};
handle_cast({restock,N}, {stock,Count,Sold}) -> {noreply, {stock,Count + N,Sold}}.
