# A minute later it is too late for a second create without authorization, and the old provider may still
# authorize the port.
after opening

AAAA /subscriptionVersionNewSP-Create create due=100
     200 port due=100 phase=initial
NPAC /clock minute=71
     200 now=71
BBBB /subscriptionVersionOldSP-Create concur authorized=false due=100
     409 too_late 19
CCCC /versions/1
     200 port due=100 phase=final
BBBB /subscriptionVersionOldSP-Create concur due=100
     200 port due=100
