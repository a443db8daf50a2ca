local found=0
for n=2,1499 do
  local s,d=1,2
  while d*d<=n do
    if n%d==0 then s=s+d; if d*d~=n then s=s+n//d end end
    d=d+1
  end
  if s==n then print(n); found=found+1 end
  if s>n then found=found+2 end
end
print(found)
