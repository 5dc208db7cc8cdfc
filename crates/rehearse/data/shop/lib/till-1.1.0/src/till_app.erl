%% The till: its application and its supervisor.
-module(till_app).
-behaviour(application).
-behaviour(supervisor).
-export([start/2, stop/1, init/1]).

start(_Type, Args) -> supervisor:start_link({local,till_sup}, ?MODULE, Args).
stop(_State) -> ok.

init([]) ->
    {ok, {{one_for_one,3,10},
          [{till_log, {till_log,start,[]}, permanent, 1000, worker, [till_log]},
           {till, {till_gateway,start_link,[]}, permanent, 1000, worker, [till_gateway]}]}}.
