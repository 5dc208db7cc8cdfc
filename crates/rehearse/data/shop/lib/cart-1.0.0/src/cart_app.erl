%% The cart: its application and its supervisor.
-module(cart_app).
-behaviour(application).
-behaviour(supervisor).
-export([start/2, stop/1, init/1]).

start(_Type, Args) -> supervisor:start_link({local,cart_sup}, ?MODULE, Args).
stop(_State) -> ok.

init([]) ->
    {ok, {{one_for_one,3,10},
          [{cart, {cart_server,start_link,[]}, permanent, 1000, worker, [cart_server]}]}}.
