{application,a,[{vsn,"1"},{modules,[a]},{registered,[]}]}.
