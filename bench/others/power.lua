local m,r,t={},{},{}
local function times(p)
  for i=0,1 do for j=0,1 do
    local s=0
    for k=0,1 do s=(s+(p and r[i*2+k] or m[i*2+k])*m[k*2+j])%1009 end
    t[i*2+j]=s
  end end
  for i=0,3 do if p then r[i]=t[i] else m[i]=t[i] end end
end
local sum=0
for n=1,299 do
  m[0]=1 m[1]=1 m[2]=1 m[3]=0
  r[0]=1 r[1]=0 r[2]=0 r[3]=1
  local e=n
  while e>0 do if e%2==1 then times(true) end times(false) e=e//2 end
  sum=(sum+r[1])%1009
end
print(sum)
