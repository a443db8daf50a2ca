local a,s={},{}
for i=0,29999 do a[i]=i*7919%1000 end
s[0]=a[0]
for i=1,29999 do s[i]=s[i-1]+a[i] end
local best,low=0,0
for i=0,29999 do
  local v=s[i]-499*i
  if v-low>best then best=v-low end
  if v<low then low=v end
end
print(best)
