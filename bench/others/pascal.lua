local c={}
for r=0,39 do
  c[0]=1
  for k=1,199 do c[k]=0 end
  for n=1,99 do
    for k=n,1,-1 do c[k]=(c[k]+c[k-1])%1009 end
  end
end
print(c[50])
