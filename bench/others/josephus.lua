local nxt={}
for i=0,1999 do nxt[i]=(i+1)%2000 end
local at,left=1999,2000
while left>1 do
  for k=0,5 do at=nxt[at] end
  nxt[at]=nxt[nxt[at]]
  left=left-1
end
print(at)
