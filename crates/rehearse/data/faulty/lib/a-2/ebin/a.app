{application,a,[{vsn,"2"},{modules,[a]},{registered,[]}]}.
