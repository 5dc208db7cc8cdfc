{application, sw_fax,
 [{description, "Counts facsimiles"},
  {vsn, "1"},
  {modules, [sw_fax_app,fax]},
  {registered, [sw_fax_sup,fax]},
  {applications, [kernel,stdlib]},
  {mod, {sw_fax_app, []}}]}.
