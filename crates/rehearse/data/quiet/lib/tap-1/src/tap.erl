-module(tap).
-vsn("1").
-export([start_link/0,init/1,handle_call/3,handle_cast/2]).
start_link() -> gen_server:start_link({local,tap},?MODULE,[],[]).
init([]) -> {ok,0}.
handle_call(fill,_F,N) -> {reply,N+1,N+1}.
handle_cast(_,N) -> {noreply,N}.
