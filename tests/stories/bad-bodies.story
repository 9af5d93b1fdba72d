# Bodies are refused by their form; of two equal keys the last one counts.

raw "POST /carriers HTTP/1.1\r\nx-spid: NPAC\r\ncontent-length: 0\r\n\r\n"
     400 bad_request 41
NPAC /carriers {}
     400 bad_request 41
NPAC /carriers spid=aaaa
     400 bad_request 41
NPAC /carriers {"spid":"AAAA","x":1}
     400 bad_request 41
NPAC /carriers spid=null
     400 bad_request 41
NPAC /carriers ["AAAA"]
     400 bad_request 41
NPAC /carriers {"spid":"AAAA"} x
     400 bad_request 41
NPAC /carriers raw "["*1000
     400 bad_request 41
NPAC /lrns {"lrn":2025440000}
     400 bad_request 41
NPAC /codes code=102533 spid=BBBB
     400 bad_request 41
NPAC /subscriptionVersionActivate id=1.0
     400 bad_request 41
NPAC /subscriptionVersionActivate id=1e0
     400 bad_request 41
NPAC /subscriptionVersionActivate id=-1
     400 bad_request 41
NPAC /subscriptionVersionActivate id=-0
     400 bad_request 41
NPAC /subscriptionVersionActivate id=1099511627776
     400 bad_request 41
NPAC /subscriptionVersionActivate {"id":1,"x":2}
     400 bad_request 41
NPAC /downloads/acknowledge id=1
     400 bad_request 41
NPAC /subscriptionVersionOldSP-Create concur tn=20253312345
     400 bad_request 41
NPAC /subscriptionVersionNewSP-Create create cic=288
     400 bad_request 41

NPAC /carriers {"spid":"BBBB","spid":"AAAA"}
     200 rows=[] spid=AAAA

# What stands under a key that comes again is read too: it has to be JSON.
NPAC /carriers {"spid":{"x":[1,"y"]},"spid":"CCCC"}
     200 rows=[] spid=CCCC
NPAC /carriers {"spid":12345678901234567890123,"spid":"DDDD"}
     200 rows=[] spid=DDDD
NPAC /carriers {"spid":1e999,"spid":"EEEE"}
     400 bad_request 41
NPAC /carriers {"spid":007,"spid":"EEEE"}
     400 bad_request 41
NPAC /carriers raw "{\"spid\":" "["*126 "]"*126 ",\"spid\":\"EEEE\"}"
     200 rows=[] spid=EEEE
NPAC /carriers raw "{\"spid\":" "["*127 "]"*127 ",\"spid\":\"FFFF\"}"
     400 bad_request 41

# A text may have escapes and a body blanks, and a key may come as often as it likes.
NPAC /carriers {"\u0073pid":"\u0046FFF"}
     200 rows=[] spid=FFFF
NPAC /carriers { "spid" : "GGGG" , "spid" : "HHHH" }
     200 rows=[] spid=HHHH
NPAC /carriers {"spid":1,"spid":true,"spid":null,"spid":"x","spid":{},"spid":[],"spid":"IIII"}
     200 rows=[] spid=IIII
NPAC /carriers {"spid":"JJJJ"}x
     400 bad_request 41

# Blanks may stand between the marks, as programs write them, and marks have to.
NPAC /carriers raw "{\n  \"spid\": \"KKKK\"\n}"
     200 rows=[] spid=KKKK
NPAC /codes raw "{\"code\": \"202533\", \"spid\": \"KKKK\"}"
     200 code=202533 spid=KKKK
NPAC /carriers raw "{\t\"spid\":\r\n\"LLLL\"}\n"
     200 rows=[] spid=LLLL
NPAC /carriers raw "{\"spid\":\"MM\u00c9M\"}"
     400 bad_request 41
NPAC /carriers raw "{\"spid\":\"MMMM}"
     400 bad_request 41
NPAC /carriers raw "{\"spid\":\"MMMM\",}"
     400 bad_request 41
NPAC /carriers raw "{,\"spid\":\"MMMM\"}"
     400 bad_request 41
NPAC /carriers raw "{\"spid\" \"MMMM\"}"
     400 bad_request 41
NPAC /carriers raw "{\"spid\":\"MMMM\" \"x\":1}"
     400 bad_request 41
NPAC /carriers raw "{\"spid\":\"MMMM\""
     400 bad_request 41
NPAC /carriers raw "{\"spid\":\"MM\nMM\"}"
     400 bad_request 41
NPAC /subscriptionVersionActivate raw "{\"id\":01}"
     400 bad_request 41
NPAC /subscriptionVersionActivate raw "{\"id\":}"
     400 bad_request 41

# Bytes that are no UTF-8: one alone, a sequence cut, one of two bytes for a letter of one, a surrogate, and a key.
NPAC /carriers raw "{\"spid\":\"MM\udcffM\"}"
     400 bad_request 41
NPAC /carriers raw "{\"spid\":\"MMM\udcc3\"}"
     400 bad_request 41
NPAC /carriers raw "{\"spid\":\"MMM\udcc1\udc8d\"}"
     400 bad_request 41
NPAC /carriers raw "{\"spid\":\"M\udced\udca0\udc80\",\"spid\":\"MMMM\"}"
     400 bad_request 41
NPAC /carriers raw "{\"spid\udc80\":\"MMMM\"}"
     400 bad_request 41
FFFF /query raw "{\"uri\":\"tel:+12025331234;a=\udcff\"}"
     400 bad_request 41
FFFF /query raw "\udcef\udcbb\udcbf{\"uri\":\"tel:+12025331234\"}"
     400 bad_request 41
NPAC /carriers spid=MMMM
     200 rows=[] spid=MMMM
