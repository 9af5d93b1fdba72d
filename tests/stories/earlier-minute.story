# A minute below the present one changes nothing: a window that has ended does not begin again.
after opening

AAAA /subscriptionVersionNewSP-Create create due=100
     200 port due=100 phase=initial
NPAC /clock minute=60
     200 now=60
CCCC /versions/1
     200 port due=100 phase=final
NPAC /clock minute=30
     409 clock_back 27
CCCC /versions/1
     200 port due=100 phase=final
