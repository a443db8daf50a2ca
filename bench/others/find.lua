local t,w={},{[0]=1,4,1,0,2,4}
for i=0,19999 do t[i]=(i*i+i//7)%5 end
local hits=0
local i=0
while i+6<=20000 do
  local k=0
  while k<6 and t[i+k]==w[k] do k=k+1 end
  if k==6 then hits=hits+1 end
  i=i+1
end
print(hits)
