# A first create without authorization leaves the restriction's minutes to its due minute, or is too late;
# with authorization it is not.
after opening

NPAC /clock minute=50
     200 now=50
BBBB /subscriptionVersionOldSP-Create concur authorized=false due=79
     409 too_late 19
BBBB /subscriptionVersionOldSP-Create concur authorized=false due=50
     409 too_late 19
BBBB /subscriptionVersionOldSP-Create concur due=50 tn=2025331235
     200 port due=50 lrn=null phase=initial since=50 subject=2025331235
BBBB /subscriptionVersionOldSP-Create concur authorized=false due=80
     200 port due=80 id=2 lrn=null since=50 status=conflict
