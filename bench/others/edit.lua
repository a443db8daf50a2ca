local a,b,d={},{},{}
local function least(x,y) if x<y then return x end return y end
for i=0,299 do a[i]=(i*17)%23; b[i]=(i*13)%19 end
for i=0,300 do d[i]=i; d[i*301]=i end
for i=1,300 do
  for j=1,300 do
    local c=1
    if a[i-1]==b[j-1] then c=0 end
    d[i*301+j]=least(least(d[(i-1)*301+j]+1,d[i*301+j-1]+1),d[(i-1)*301+j-1]+c)
  end
end
print(d[90600])
