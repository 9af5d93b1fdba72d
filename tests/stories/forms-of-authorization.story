# Whether the old provider authorizes a port is said in so many words.
after opening

BBBB /subscriptionVersionOldSP-Create due=100 new=AAAA old=BBBB tn=2025331234
     400 bad_request 41
BBBB /subscriptionVersionOldSP-Create concur authorized=null due=100
     400 bad_request 41
BBBB /subscriptionVersionOldSP-Create {"authorized":"false","due":100,"new":"AAAA","old":"BBBB","tn":"2025331234"}
     400 bad_request 41
BBBB /subscriptionVersionOldSP-Create {"authorized":0,"due":100,"new":"AAAA","old":"BBBB","tn":"2025331234"}
     400 bad_request 41
BBBB /subscriptionVersionOldSP-Create {"authorized":False,"due":100,"new":"AAAA","old":"BBBB","tn":"2025331234"}
     400 bad_request 41
BBBB /subscriptionVersionOldSP-Create concur authorized=[] due=100
     400 bad_request 41
AAAA /subscriptionVersionNewSP-Create create authorized=false due=100
     400 bad_request 41
BBBB /subscriptionVersionOldSP-Create {"tn":"2025331234","old":"BBBB","new":"AAAA","due":100,"authorized":true,"authorized":false}
     200 port due=100 lrn=null status=conflict
