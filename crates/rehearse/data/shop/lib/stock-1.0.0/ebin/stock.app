{application, stock,
 [{description, "What is on the shelves"},
  {vsn, "1.0.0"},
  {modules, [stock_app,stock_server,stock_report]},
  {registered, [stock]},
  {applications, [kernel,stdlib]},
  {mod, {stock_app,[]}}]}.
