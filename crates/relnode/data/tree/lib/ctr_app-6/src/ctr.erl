-module(ctr).
-vsn("6").
-export([start_link/0,init/1,handle_call/3,handle_cast/2,code_change/3]).
start_link() -> gen_server:start_link({local,ctr},?MODULE,[],[]).
init([]) -> {ok,{n,4}}.
handle_call(bump,_F,{n,N}) -> M = N+ctr_step:step(), {reply,M,{n,M}};
handle_call(get,_F,{n,N}) -> {reply,N,{n,N}}.
handle_cast({set,N},_S) -> {noreply,{n,N}}.
code_change({down,_V},{n,N},_X) -> {ok,N};
code_change(_V,N,_X) -> {ok,{n,N}}.
