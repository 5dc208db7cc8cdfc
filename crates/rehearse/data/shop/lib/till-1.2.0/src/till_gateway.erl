%% Takes payments, less a fee of 3: {till,Takings}.
-module(till_gateway).
-vsn("1.2.0").
-behaviour(gen_server).
-export([start_link/0, init/1, handle_call/3, handle_cast/2, code_change/3]).

start_link() -> gen_server:start_link({local,till}, ?MODULE, [], []).

init([]) -> {ok, {till,0}}.

handle_call(takings, _From, {till,Takings}) ->
    {reply, Takings, {till,Takings}};
handle_call({pay,N}, _From, {till,Takings}) when is_integer(N), N > 0 ->
    {reply, {paid,N}, {till,Takings + N - fee()}}.

handle_cast({refund,N}, {till,Takings}) -> {noreply, {till,Takings - N + fee()}}.

%% Down, the fee is the one of this version, whatever it was before the way up: no inverse.
code_change({down,_Vsn}, {till,Takings}, _Extra) -> {ok, {till,Takings,fee()}};
code_change(_Vsn, {till,Takings,_Fee}, _Extra) -> {ok, {till,Takings}}.

fee() -> 3.
