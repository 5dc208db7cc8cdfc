%% What the stock is told as.
-module(stock_report).
-export([line/3]).

line(Count, Sold, Low) when Count =< Low -> {few,Count,sold,Sold};
line(Count, Sold, _Low) -> {left,Count,sold,Sold}.
