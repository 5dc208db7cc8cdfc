%% Prices, less a discount in per cent, which is the state.
-module(basket_prices).
-vsn("1.0.0").
-behaviour(gen_server).
-export([start_link/0, init/1, handle_call/3, handle_cast/2]).

start_link() -> gen_server:start_link({local,prices}, ?MODULE, [], []).

init([]) -> {ok, 0}.

handle_call({price,P}, _From, Discount) -> {reply, P - P * Discount div 100, Discount}.

handle_cast({discount,D}, _Discount) -> {noreply, D}.
