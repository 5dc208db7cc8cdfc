%% Takes payments, less a fee: {till,Takings,Fee}.
-module(till_gateway).
-vsn("1.0.0").
-behaviour(gen_server).
-export([start_link/0, init/1, handle_call/3, handle_cast/2]).

start_link() -> gen_server:start_link({local,till}, ?MODULE, [], []).

init([]) -> {ok, {till,0,2}}.

handle_call(takings, _From, {till,Takings,Fee}) ->
    {reply, Takings, {till,Takings,Fee}};
handle_call({pay,N}, _From, {till,Takings,Fee}) when is_integer(N), N > 0 ->
    till_log ! {paid,N},
    {reply, {paid,N}, {till,Takings + N - Fee,Fee}}.

handle_cast({refund,N}, {till,Takings,Fee}) ->
    till_log ! {paid,-N},
    {noreply, {till,Takings - N + Fee,Fee}}.
