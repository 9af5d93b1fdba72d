# Where a hundred carriers are registered: who is not the administrator, and what is registered, is told first.
after hundred-carriers

C000 /carriers spid=C100
     403 not_admin 2
NPAC /carriers spid=C000
     409 carrier_taken 4
NPAC /carriers spid=NPAC
     409 carrier_taken 4
