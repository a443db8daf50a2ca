local p, used, found = {}, {}, 0
for i = 0, 7 do used[i] = 0; p[i] = 0 end
local function go(k)
  if k == 7 then if p[0] < p[6] then found = found + 1 end return 0 end
  for i = 0, 6 do
    if used[i] == 0 then used[i] = 1; p[k] = i; go(k + 1); used[i] = 0 end
  end
  return 0
end
go(0)
print(found)
