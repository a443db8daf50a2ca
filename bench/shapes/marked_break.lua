local a = {}
for i = 0, 999 do a[i] = i end
local found = 0
for r = 0, 199 do
  local k = 0
  while true do
    if a[k] == 990 then found = k break end
    k = k + 1
  end
end
print(found)
