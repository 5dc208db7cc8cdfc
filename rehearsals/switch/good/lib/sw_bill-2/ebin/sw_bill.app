{application, sw_bill,
 [{description, "Charges sessions"},
  {vsn, "2"},
  {modules, [sw_bill_app,ledger,tariff]},
  {registered, [sw_bill_sup,ledger]},
  {applications, [kernel,stdlib]},
  {mod, {sw_bill_app, []}}]}.
