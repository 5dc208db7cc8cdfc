{application, till,
 [{description, "Payments"},
  {vsn, "1.2.0"},
  {modules, [till_app,till_gateway]},
  {registered, [till]},
  {applications, [kernel,stdlib,stock]},
  {mod, {till_app,[]}}]}.
