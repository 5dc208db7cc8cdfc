-module(k).
-export([init/1,start/1,handle_call/3,handle_cast/2,handle_info/2]).
init(sup) -> {ok,{{one_for_one,1,1},
  [{a,{k,start,[a]},permanent,1,worker,[k]},
   {b,{k,start,[b]},transient,1,worker,[k]},
   {c,{k,start,[c]},temporary,1,worker,[k]}]}};
init(S) -> {ok,S}.
start(N) -> gen_server:start_link({local,N},k,0,[]).
handle_call(keep,F,_S) -> {noreply,F};
handle_call({both,T,V},F,_S) -> gen_server:reply(F,T), V;
handle_call(V,_F,_S) -> V.
handle_cast({answer,T},F) -> gen_server:reply(F,T), {noreply,done};
handle_cast({tell,D,M},S) -> D ! M, {noreply,S};
handle_cast({tell,D,M,R},_S) -> D ! M, exit(R);
handle_cast(V,_S) -> V.
handle_info(V,_S) -> V.
