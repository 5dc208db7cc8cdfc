{application, sw_core,
 [{description, "Routes calls, and keeps sessions"},
  {vsn, "1"},
  {modules, [sw_core_app,router,num,sess,trunk]},
  {registered, [sw_core_sup,router,sess,trunk]},
  {applications, [kernel,stdlib]},
  {mod, {sw_core_app, []}}]}.
