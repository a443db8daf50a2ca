local ways,coin={},{[0]=1,2,5,10,20,50,100,200}
for i=0,5000 do ways[i]=0 end
ways[0]=1
for c=0,7 do
  local v=coin[c]
  for t=v,5000 do ways[t]=(ways[t]+ways[t-v])%10007 end
end
print(ways[5000])
