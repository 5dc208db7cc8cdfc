%% Takes payments of several kinds, less the fee of each: {till,[{Kind,Takings}],[{Kind,Fee}]}. Nobody can make such a state of
%% what the till was before, so the application is restarted.
-module(till_gateway).
-vsn("1.3.0").
-behaviour(gen_server).
-export([start_link/0, init/1, handle_call/3, handle_cast/2]).

start_link() -> gen_server:start_link({local,till}, ?MODULE, [], []).

init([]) -> {ok, {till,[{card,0},{cash,0}],[{card,2}]}}.

handle_call(takings, _From, {till,Takings,Fees}) ->
    {reply, sum(Takings), {till,Takings,Fees}};
handle_call({pay,N}, From, S) ->
    handle_call({pay,card,N}, From, S);
handle_call({pay,Kind,N}, _From, {till,Takings,Fees}) when is_integer(N), N > 0 ->
    till_log ! {paid,N},
    {reply, {paid,N}, {till,add(Kind, N - till_fees:of_kind(Kind, Fees), Takings),Fees}}.

handle_cast({refund,N}, {till,Takings,Fees}) ->
    till_log ! {paid,-N},
    {noreply, {till,add(card, till_fees:of_kind(card, Fees) - N, Takings),Fees}}.

sum([]) -> 0;
sum([{_Kind,N}|Takings]) -> N + sum(Takings).

add(Kind, N, []) -> [{Kind,N}];
add(Kind, N, [{Kind,Sum}|Takings]) -> [{Kind,Sum + N}|Takings];
add(Kind, N, [Other|Takings]) -> [Other|add(Kind, N, Takings)].
