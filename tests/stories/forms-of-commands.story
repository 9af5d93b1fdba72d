# The forms of the commands on a version: an id, of a disconnect a release too, and nothing else.
after opening

let longest id=1099511627775

AAAA /subscriptionVersionConflict longest
     404 not_found 10
AAAA /subscriptionVersionConflict {}
     400 bad_request 41
AAAA /subscriptionVersionConflict id=null
     400 bad_request 41
AAAA /subscriptionVersionConflict {"id":"1"}
     400 bad_request 41
AAAA /subscriptionVersionConflict {"id":1,"release":null}
     400 bad_request 41
AAAA /subscriptionVersionConflict
     405 bad_method 43
AAAA /subscriptionVersionRemoveFromConflict longest
     404 not_found 10
AAAA /subscriptionVersionRemoveFromConflict {}
     400 bad_request 41
AAAA /subscriptionVersionRemoveFromConflict id=1099511627776
     400 bad_request 41
AAAA /subscriptionVersionRemoveFromConflict {"id":1,"x":1}
     400 bad_request 41
AAAA /subscriptionVersionRemoveFromConflict
     405 bad_method 43
AAAA /subscriptionVersionCancel longest
     404 not_found 10
AAAA /subscriptionVersionCancel {}
     400 bad_request 41
AAAA /subscriptionVersionCancel id=1.0
     400 bad_request 41
AAAA /subscriptionVersionCancel {"id":1,"x":null}
     400 bad_request 41
AAAA /subscriptionVersionCancel
     405 bad_method 43
AAAA /subscriptionVersionOldSP-CancellationAcknowledge longest
     404 not_found 10
AAAA /subscriptionVersionOldSP-CancellationAcknowledge {}
     400 bad_request 41
AAAA /subscriptionVersionOldSP-CancellationAcknowledge id=-0
     400 bad_request 41
AAAA /subscriptionVersionOldSP-CancellationAcknowledge {"ID":1}
     400 bad_request 41
AAAA /subscriptionVersionOldSP-CancellationAcknowledge
     405 bad_method 43
AAAA /subscriptionVersionNewSP-CancellationAcknowledge longest
     404 not_found 10
AAAA /subscriptionVersionNewSP-CancellationAcknowledge {}
     400 bad_request 41
AAAA /subscriptionVersionNewSP-CancellationAcknowledge [1]
     400 bad_request 41
AAAA /subscriptionVersionNewSP-CancellationAcknowledge {"id":1,"attempt":1}
     400 bad_request 41
AAAA /subscriptionVersionNewSP-CancellationAcknowledge
     405 bad_method 43

AAAA /subscriptionVersionDisconnect longest
     404 not_found 10
AAAA /subscriptionVersionDisconnect longest release=null
     404 not_found 10
AAAA /subscriptionVersionDisconnect longest release=0
     404 not_found 10
AAAA /subscriptionVersionDisconnect longest release=1099511627775
     404 not_found 10
AAAA /subscriptionVersionDisconnect {"release":"x","release":7,"id":2,"id":1}
     404 not_found 10
AAAA /subscriptionVersionDisconnect {}
     400 bad_request 41
AAAA /subscriptionVersionDisconnect release=7
     400 bad_request 41
AAAA /subscriptionVersionDisconnect id=null release=7
     400 bad_request 41
AAAA /subscriptionVersionDisconnect longest release=1099511627776
     400 bad_request 41
AAAA /subscriptionVersionDisconnect longest release=1.5
     400 bad_request 41
AAAA /subscriptionVersionDisconnect longest release=1e0
     400 bad_request 41
AAAA /subscriptionVersionDisconnect longest release=-1
     400 bad_request 41
AAAA /subscriptionVersionDisconnect longest release="x"
     400 bad_request 41
AAAA /subscriptionVersionDisconnect longest release="7"
     400 bad_request 41
AAAA /subscriptionVersionDisconnect longest release=false
     400 bad_request 41
AAAA /subscriptionVersionDisconnect longest release=[]
     400 bad_request 41
AAAA /subscriptionVersionDisconnect {"id":1,"release":7,"x":1}
     400 bad_request 41
AAAA /subscriptionVersionDisconnect
     405 bad_method 43

# a modify has a routing number, and it may have a carrier code
AAAA /subscriptionVersionModify id=1
     400 bad_request 41
AAAA /subscriptionVersionModify lrn=2025440000
     400 bad_request 41
AAAA /subscriptionVersionModify id=1 lrn=202544000
     400 bad_request 41
AAAA /subscriptionVersionModify id=1 lrn=2025440000 cic=12
     400 bad_request 41
AAAA /subscriptionVersionModify id=1 lrn=2025440000 new=AAAA
     400 bad_request 41
AAAA /subscriptionVersionModify
     405 bad_method 43

# the caller's own refusal stands behind the form's
ZZZZ /subscriptionVersionDisconnect release=7
     400 bad_request 41
ZZZZ /subscriptionVersionCancel {}
     400 bad_request 41

# names of paths are compared byte for byte
AAAA /subscriptionversionCancel id=1
     404 no_path 42
AAAA /subscriptionVersionOldSP-CancellationAcknowledgement id=1
     404 no_path 42
AAAA /subscriptionVersionDisconnect/ id=1
     404 no_path 42
AAAA /subscriptionVersionModify/ id=1
     404 no_path 42
