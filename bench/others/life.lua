local g,h={},{}
for i=0,4095 do g[i]=((i*7+i//3)%5==0) and 1 or 0; h[i]=0 end
for t=0,29 do
  for y=1,62 do
    for x=1,62 do
      local p=y*64+x
      local n=g[p-65]+g[p-64]+g[p-63]+g[p-1]+g[p+1]+g[p+63]+g[p+64]+g[p+65]
      if n==3 then h[p]=1 elseif n==2 then h[p]=g[p] else h[p]=0 end
    end
  end
  for i=0,4095 do g[i]=h[i] end
end
local s=0
for i=0,4095 do s=s+g[i] end
print(s)
