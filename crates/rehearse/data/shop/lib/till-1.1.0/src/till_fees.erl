%% The fee of a kind of payment.
-module(till_fees).
-export([of_kind/2]).

of_kind(_Kind, []) -> 0;
of_kind(Kind, [{Kind,Fee}|_Fees]) -> Fee;
of_kind(Kind, [_Other|Fees]) -> of_kind(Kind, Fees).
