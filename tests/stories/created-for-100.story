# A port that is due at 100, with both creates.
after opening

let near port due=100

AAAA /subscriptionVersionNewSP-Create create due=100
     200 near phase=initial
BBBB /subscriptionVersionOldSP-Create concur due=100
     200 near
