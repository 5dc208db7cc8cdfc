-module(tap).
-vsn("2").
-export([start_link/0,init/1,handle_call/3,handle_cast/2,code_change/3]).
start_link() -> gen_server:start_link({local,tap},?MODULE,[],[]).
init([]) -> {ok,{n,0}}.
handle_call(fill,_F,{n,N}) -> {reply,N+1,{n,N+1}}.
handle_cast(_,S) -> {noreply,S}.
code_change({down,_V},{n,N},_X) -> {ok,N};
code_change(_V,N,_X) when N > 2 -> {ok,{n,N}}.
