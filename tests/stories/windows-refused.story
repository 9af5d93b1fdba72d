# Who may set the windows, and what the body has to be.
after opening

AAAA /windows windows
     403 not_admin 2
XXXX /windows windows
     403 not_admin 2
AAAA /windows windows broadcast=0
     400 bad_request 41
NPAC /windows windows broadcast=0
     400 bad_request 41
NPAC /windows windows broadcast=525601
     400 bad_request 41
NPAC /windows windows broadcast="15"
     400 bad_request 41
NPAC /windows windows other=15
     400 bad_request 41
NPAC /windows {"broadcast":15}
     400 bad_request 41
NPAC /windows
     405 bad_method 43
NPAC /windows windows
     200 now=0 set=2
NPAC /windows windows broadcast=525600 pending_retention=1
     200 now=0 set=3
