local function prime(n)
  local d=2
  while d*d<=n do if n%d==0 then return false end d=d+1 end
  return true
end
local c=0
for n=2,11999 do if prime(n) then c=c+1 end end
print(c)
