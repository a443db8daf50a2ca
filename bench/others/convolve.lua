local x,k,y={},{[0]=1,2,3,4,5,4,3,2,1},{}
for i=0,399 do x[i]=i*37%101 end
for r=0,19 do
  for i=4,395 do
    local s=0
    for j=0,8 do s=s+k[j]*x[i+j-4] end
    y[i]=s//25
  end
  for i=4,395 do x[i]=y[i] end
end
print(x[200])
