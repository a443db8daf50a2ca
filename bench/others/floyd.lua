local d={}
for i=0,59 do for j=0,59 do d[i*60+j]=(i*31+j*17)%97+1 end end
for k=0,59 do
  for i=0,59 do
    local x=d[i*60+k]
    for j=0,59 do
      local t=x+d[k*60+j]
      if t<d[i*60+j] then d[i*60+j]=t end
    end
  end
end
local s=0
for i=0,3599 do s=s+d[i] end
print(s)
