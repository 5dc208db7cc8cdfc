%% Servers of OTP, as gen_server has them, for figures to compare with.
%%
%% `erl +S N:N -noshell -run otp_servers main ..` does as main.rattle does, on N schedulers in place of N workers: `job LOOPS
%% TURNS` evaluates a callback; at `drain REQUEST LOOPS CALLS` so many calls wait in the mailboxes of 16 servers that are
%% suspended, and these go on until all replies have come; at `round TURNS` so many calls are made, one after the other, of a
%% server that has nothing else to do. REQUEST is `bump` or `wide`. Build it by `erlc`.
-module(otp_servers).
-behaviour(gen_server).
-export([main/1, init/1, handle_call/3, handle_cast/2]).

-define(SERVERS, 16).
-define(PAIRS, 1000).

main(["job", Loops, Turns]) ->
    print(time(fun() -> evaluate(list_to_integer(Loops), list_to_integer(Turns)) end), []);
main(["drain", Request, Loops, Calls]) ->
    drain(Request, list_to_integer(Loops), list_to_integer(Calls));
main(["round", Turns]) ->
    {ok, Server} = gen_server:start_link(?MODULE, 0, []),
    Count = list_to_integer(Turns),
    call(Server, Count),
    print(time(fun() -> call(Server, Count) end), []).

time(Work) ->
    Start = erlang:monotonic_time(nanosecond),
    Work(),
    erlang:monotonic_time(nanosecond) - Start.

print(Time, More) ->
    io:format("~s~n", [lists:join(" ", [integer_to_list(N) || N <- [Time | More]])]),
    halt(0).

evaluate(_, 0) -> ok;
evaluate(Loops, Turns) ->
    {reply, _, _} = handle_call({work, Loops}, none, 0),
    evaluate(Loops, Turns - 1).

call(_, 0) -> ok;
call(Server, Turns) ->
    _ = gen_server:call(Server, bump),
    call(Server, Turns - 1).

drain(Word, Loops, Calls) ->
    {Size, Request} = case Word of "wide" -> {?PAIRS, wide}; _ -> {0, {work, Loops}} end,
    Servers = [element(2, gen_server:start_link(?MODULE, Size, [])) || _ <- lists:seq(1, ?SERVERS)],
    lists:foreach(fun erlang:suspend_process/1, Servers),
    Tag = make_ref(),
    [Server ! {'$gen_call', {self(), Tag}, Request} || _ <- lists:seq(1, Calls), Server <- Servers],
    Start = erlang:monotonic_time(nanosecond),
    lists:foreach(fun erlang:resume_process/1, Servers),
    Sum = replies(Tag, Calls * ?SERVERS, 0),
    print(erlang:monotonic_time(nanosecond) - Start, [Calls * ?SERVERS, Sum, 0, 0]).

replies(_, 0, Sum) -> Sum;
replies(Tag, Left, Sum) ->
    receive {Tag, Value} -> replies(Tag, Left - 1, Sum + Value) end.

init(0) -> {ok, 0};
init(Pairs) -> {ok, [{N, 0} || N <- lists:seq(1, Pairs)]}.

handle_call(bump, _, S) -> {reply, S + 1, S + 1};
handle_call(wide, _, [{K, V} | T]) -> {reply, V + 1, [{K, V + 1} | T]};
handle_call({work, N}, _, S) -> spin(N), {reply, S + 1, S + 1}.

handle_cast(_, S) -> {noreply, S}.

spin(0) -> ok;
spin(N) -> spin(N - 1).
