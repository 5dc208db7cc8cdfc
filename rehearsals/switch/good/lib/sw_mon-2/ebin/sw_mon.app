{application, sw_mon,
 [{description, "Counts ticks of a clock"},
  {vsn, "2"},
  {modules, [sw_mon_app,mon]},
  {registered, [sw_mon_sup,mon]},
  {applications, [kernel,stdlib]},
  {env, [{level,2}]},
  {mod, {sw_mon_app, []}}]}.
