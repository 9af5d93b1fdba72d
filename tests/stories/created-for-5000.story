# A port that is due at 5000, with both creates.
after opening

let far port due=5000

AAAA /subscriptionVersionNewSP-Create create due=5000
     200 far phase=initial
BBBB /subscriptionVersionOldSP-Create concur due=5000
     200 far
NPAC /clock minute=10
     200 now=10
