%% What a customer is to pay.
-module(basket_rules).
-export([total/1]).

total([]) -> 0;
total([Price|Prices]) -> Price + total(Prices).
