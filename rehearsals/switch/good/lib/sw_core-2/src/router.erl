-module(router).
-behaviour(gen_server).
-vsn("2").
-export([start_link/0]).
-export([init/1, handle_call/3, handle_cast/2, handle_info/2, terminate/2, code_change/3]).

start_link() -> gen_server:start_link({local,router}, ?MODULE, [], []).

init([]) -> {ok, {r2, 0, 0, [{46,sweden},{49,germany}]}}.

handle_call({route,N}, _From, {r2,Asked,Missed,Table}) ->
    case find(num:zone(N), Table) of
        unknown -> {reply, unknown, {r2,Asked+1,Missed+1,Table}};
        To -> {reply, To, {r2,Asked+1,Missed,Table}}
    end;
handle_call(count, _From, {r2,Asked,Missed,Table}) ->
    {reply, {Asked,Missed}, {r2,Asked,Missed,Table}}.

handle_cast({add,Prefix,To}, {r2,Asked,Missed,Table}) ->
    {noreply, {r2,Asked,Missed,[{Prefix,To}|Table]}}.

handle_info(_Message, S) -> {noreply, S}.

terminate(_Reason, _S) -> ok.

code_change({down,_Vsn}, {r2,Asked,_Missed,Table}, _Extra) -> {ok, {routes,Table,Asked}};
code_change(_Vsn, {routes,Table,Asked}, Missed) -> {ok, {r2,Asked,Missed,Table}}.

find(_Prefix, []) -> unknown;
find(Prefix, [{Prefix,To}|_Table]) -> To;
find(Prefix, [_Other|Table]) -> find(Prefix, Table).
