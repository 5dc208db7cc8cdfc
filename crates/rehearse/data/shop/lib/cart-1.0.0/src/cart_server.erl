%% What a customer has chosen: a list of items and prices.
-module(cart_server).
-vsn("1.0.0").
-behaviour(gen_server).
-export([start_link/0, init/1, handle_call/3, handle_cast/2]).

start_link() -> gen_server:start_link({local,cart}, ?MODULE, [], []).

init([]) -> {ok, []}.

handle_call(total, _From, Items) -> {reply, total(Items), Items}.

handle_cast({add,Item,Price}, Items) -> {noreply, [{Item,Price}|Items]};
handle_cast(clear, _Items) -> {noreply, []}.

total([]) -> 0;
total([{_Item,Price}|Items]) -> Price + total(Items).
