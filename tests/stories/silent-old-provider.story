# A silent old provider delays a port until both concurrence windows have ended.
after opening

AAAA /subscriptionVersionNewSP-Create create due=100
     200 port due=100 phase=initial
NPAC /clock minute=59
     200 now=59
CCCC /versions/1
     200 port due=100 phase=initial
NPAC /clock minute=60
     200 now=60
CCCC /versions/1
     200 port due=100 phase=final
NPAC /clock minute=119
     200 now=119
CCCC /versions/1
     200 port due=100 phase=final
AAAA /subscriptionVersionActivate id=1
     409 not_concurred 16
NPAC /clock minute=120
     200 now=120
CCCC /versions/1
     200 port due=100 phase=ended
AAAA /subscriptionVersionActivate id=1
     200 port attempt=1 due=100 since=120 status=sending
