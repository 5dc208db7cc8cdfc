{application,ctr_app,[{vsn,"4"},{modules,[ctr_app,ctr,ctr_step,lp]},
  {registered,[ctr,lp]},{mod,{ctr_app,[]}}]}.
