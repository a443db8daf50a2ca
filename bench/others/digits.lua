local function sum(n) local s=0 while n>0 do s=s+n%10; n=n//10 end return s end
local c=0
for n=1,15000 do if n%sum(n)==0 then c=c+1 end end
print(c)
