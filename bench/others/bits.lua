local function count(x) local n=0 while x~=0 do n=n+(x&1); x=x>>1 end return n end
local s,i=0,0
while i<20000 do s=s+count(i); i=i+1 end
print(s)
