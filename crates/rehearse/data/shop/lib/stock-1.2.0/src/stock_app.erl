%% The stock: its application and its supervisor.
-module(stock_app).
-behaviour(application).
-behaviour(supervisor).
-export([start/2, stop/1, init/1]).

start(_Type, Args) -> supervisor:start_link({local,stock_sup}, ?MODULE, Args).
stop(_State) -> ok.

init([]) ->
    {ok, {{one_for_one,3,10},
          [{stock, {stock_server,start_link,[]}, permanent, 1000, worker, [stock_server]}]}}.
