{application,tap,[{vsn,"1"},{modules,[tap_app,tap]},
  {registered,[tap]},{mod,{tap_app,[]}}]}.
