-module(ctr_step).
-export([step/0]).
step() -> 10.
