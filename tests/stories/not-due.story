# A port of another number that is due at 5 waits, and is refused what is too early or asked twice.
after first-port

let later port due=5 id=2 subject=2025331235

AAAA /subscriptionVersionNewSP-Create create due=5 tn=2025331235
     200 later phase=initial
AAAA /subscriptionVersionNewSP-Create create due=5 tn=2025331235
     409 busy 12
BBBB /subscriptionVersionOldSP-Create concur due=4 tn=2025331235
     409 due_mismatch 15
AAAA /subscriptionVersionActivate id=2
     409 not_concurred 16
BBBB /subscriptionVersionOldSP-Create concur due=5 tn=2025331235
     200 later
BBBB /subscriptionVersionOldSP-Create concur due=5 tn=2025331235
     409 busy 12
AAAA /subscriptionVersionActivate id=2
     409 before_due 17
AAAA /subscriptionVersionActivate id=2
     409 before_due 17
