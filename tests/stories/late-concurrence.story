# Due at 10, and the old provider comes at 300: the retention counts from the due minute.
after opening

AAAA /subscriptionVersionNewSP-Create create due=10
     200 port due=10 phase=initial
NPAC /clock minute=300
     200 now=300
BBBB /subscriptionVersionOldSP-Create concur due=10
     200 port due=10
NPAC /clock minute=509
     200 now=509
CCCC /versions/1
     200 port due=10
NPAC /clock minute=510
     200 now=510
CCCC /versions/1
     200 port due=10 since=510 status=canceled
