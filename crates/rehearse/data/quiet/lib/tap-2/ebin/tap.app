{application,tap,[{vsn,"2"},{modules,[tap_app,tap]},
  {registered,[tap]},{mod,{tap_app,[]}}]}.
