%% What a customer is to pay: from 10 on 1 less.
-module(basket_rules).
-export([total/1]).

total(Prices) -> rebate(sum(Prices)).

rebate(Sum) when Sum >= 10 -> Sum - 1;
rebate(Sum) -> Sum.

sum([]) -> 0;
sum([Price|Prices]) -> Price + sum(Prices).
