-module(tariff).
-vsn("2").
-export([price/0]).

price() -> 7.
