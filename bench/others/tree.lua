local key,left,right,size={},{},{},0
for i=0,4000 do key[i]=0 left[i]=0 right[i]=0 end
local function insert(at,k)
  if at==0 then size=size+1; key[size]=k; return size end
  if k<key[at] then left[at]=insert(left[at],k) else right[at]=insert(right[at],k) end
  return at
end
local root,s=0,99
for i=0,2999 do s=(s*75+74)%65537; root=insert(root,s) end
local found=0
for q=0,19999 do
  local at=root
  while at~=0 and key[at]~=q do if q<key[at] then at=left[at] else at=right[at] end end
  if at~=0 then found=found+1 end
end
print(found)
