%% The basket: its application and its supervisor. The list of modules of the child prices names the child, and not its
%% callback module basket_prices.
-module(basket_app).
-behaviour(application).
-behaviour(supervisor).
-export([start/2, stop/1, init/1]).

start(_Type, Args) -> supervisor:start_link({local,basket_sup}, ?MODULE, Args).
stop(_State) -> ok.

init([]) ->
    {ok, {{one_for_one,3,10},
          [{basket, {basket,start,[]}, permanent, 1000, worker, [basket]},
           {prices, {basket_prices,start_link,[]}, permanent, 1000, worker, [prices]}]}}.
