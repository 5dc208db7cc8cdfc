{application, cart,
 [{description, "What a customer has chosen, in place of basket"},
  {vsn, "1.0.0"},
  {modules, [cart_app,cart_server]},
  {registered, [cart]},
  {applications, [kernel,stdlib,stock]},
  {mod, {cart_app,[]}}]}.
