%% Looks whether the stock can be right.
-module(stock_audit).
-export([check/1]).

check(Count) when Count >= 0 -> ok;
check(_Count) -> wrong.
