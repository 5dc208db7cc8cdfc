{application, stock,
 [{description, "What is on the shelves"},
  {vsn, "1.2.0"},
  {modules, [stock_app,stock_server,stock_report,stock_audit]},
  {registered, [stock]},
  {applications, [kernel,stdlib]},
  {mod, {stock_app,[]}}]}.
