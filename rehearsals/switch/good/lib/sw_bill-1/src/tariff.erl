-module(tariff).
-vsn("1").
-export([price/0]).

price() -> 5.
