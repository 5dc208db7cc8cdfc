{application, till,
 [{description, "Payments"},
  {vsn, "1.3.0"},
  {modules, [till_app,till_gateway,till_log,till_fees]},
  {registered, [till,till_log]},
  {applications, [kernel,stdlib,stock]},
  {mod, {till_app,[]}}]}.
