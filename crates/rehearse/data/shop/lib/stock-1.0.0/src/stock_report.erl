%% What the stock is told as.
-module(stock_report).
-export([line/2]).

line(Count, Sold) -> {left,Count,sold,Sold}.
