%% Takes payments, less a fee that hangs on the kind of payment: {till,Takings,[{Kind,Fee}]}.
-module(till_gateway).
-vsn("1.1.0").
-behaviour(gen_server).
-export([start_link/0, init/1, handle_call/3, handle_cast/2, code_change/3]).

start_link() -> gen_server:start_link({local,till}, ?MODULE, [], []).

init([]) -> {ok, {till,0,[{card,2}]}}.

handle_call(takings, _From, {till,Takings,Fees}) ->
    {reply, Takings, {till,Takings,Fees}};
handle_call({pay,N}, _From, {till,Takings,Fees}) when is_integer(N), N > 0 ->
    till_log ! {paid,N},
    {reply, {paid,N}, {till,Takings + N - till_fees:of_kind(card, Fees),Fees}}.

handle_cast({refund,N}, {till,Takings,Fees}) ->
    till_log ! {paid,-N},
    {noreply, {till,Takings - N + till_fees:of_kind(card, Fees),Fees}}.

%% Extra is the kind of the payments of 1.0.0.
code_change({down,_Vsn}, {till,Takings,Fees}, Kind) -> {ok, {till,Takings,till_fees:of_kind(Kind, Fees)}};
code_change(_Vsn, {till,Takings,Fee}, Kind) -> {ok, {till,Takings,[{Kind,Fee}]}}.
