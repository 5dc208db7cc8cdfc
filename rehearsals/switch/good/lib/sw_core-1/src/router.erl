-module(router).
-behaviour(gen_server).
-vsn("1").
-export([start_link/0]).
-export([init/1, handle_call/3, handle_cast/2, handle_info/2, terminate/2, code_change/3]).

start_link() -> gen_server:start_link({local,router}, ?MODULE, [], []).

init([]) -> {ok, {routes, [{46,sweden},{49,germany}], 0}}.

handle_call({route,N}, _From, {routes,Table,Asked}) ->
    {reply, find(num:prefix(N), Table), {routes,Table,Asked+1}};
handle_call(count, _From, {routes,Table,Asked}) ->
    {reply, Asked, {routes,Table,Asked}}.

handle_cast({add,Prefix,To}, {routes,Table,Asked}) ->
    {noreply, {routes,[{Prefix,To}|Table],Asked}}.

handle_info(_Message, S) -> {noreply, S}.

terminate(_Reason, _S) -> ok.

code_change(_Vsn, S, _Extra) -> {ok, S}.

find(_Prefix, []) -> unknown;
find(Prefix, [{Prefix,To}|_Table]) -> To;
find(Prefix, [_Other|Table]) -> find(Prefix, Table).
