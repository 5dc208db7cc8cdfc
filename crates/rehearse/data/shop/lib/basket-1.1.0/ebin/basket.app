{application, basket,
 [{description, "What a customer has chosen"},
  {vsn, "1.1.0"},
  {modules, [basket_app,basket,basket_rules,basket_prices]},
  {registered, [basket,prices]},
  {applications, [kernel,stdlib,stock]},
  {mod, {basket_app,[]}}]}.
