# A hundred carriers are taken, and no more.

for 000 to 099
NPAC /carriers spid=C#
     200 rows=[] spid=C#
end
NPAC /carriers spid=C100
     503 full 28
