{application, till,
 [{description, "Payments"},
  {vsn, "1.0.0"},
  {modules, [till_app,till_gateway,till_log]},
  {registered, [till,till_log]},
  {applications, [kernel,stdlib,stock]},
  {mod, {till_app,[]}}]}.
