{application,b,[{vsn,"1"},{modules,[b]},{registered,[]}]}.
