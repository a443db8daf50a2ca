local a={}
local function sort(lo,hi)
  if lo>=hi then return end
  local p=a[(lo+hi)//2]
  local i,j=lo,hi
  while i<=j do
    while a[i]<p do i=i+1 end
    while a[j]>p do j=j-1 end
    if i<=j then local t=a[i]; a[i]=a[j]; a[j]=t; i=i+1; j=j-1 end
  end
  sort(lo,j)
  sort(i,hi)
end
local s=12345
for i=0,4999 do s=(s*75+74)%65537; a[i]=s end
sort(0,4999)
local c=0
for i=0,4999 do c=(c*3+a[i])%10007 end
print(c)
