{application, sw_mon,
 [{description, "Counts ticks"},
  {vsn, "1"},
  {modules, [sw_mon_app,mon]},
  {registered, [sw_mon_sup,mon]},
  {applications, [kernel,stdlib]},
  {mod, {sw_mon_app, []}}]}.
