# A number without a version is routed nowhere. Two carriers create it, and the second comes too late; the old provider concurs with the first.
after opening

CCCC /query uri=tel:+12025331234
     200 uri=tel:+12025331234;npdi
AAAA /subscriptionVersionNewSP-Create create due=100
     200 port due=100 phase=initial
CCCC /subscriptionVersionNewSP-Create create due=100 lrn=2025550000 new=CCCC
     409 busy 12
BBBB /subscriptionVersionOldSP-Create concur due=100
     200 port due=100
