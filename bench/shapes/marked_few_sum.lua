local a = {}
for i = 0, 7 do a[i] = i end
local s = 0
for r = 0, 9999 do
  local n = 2 + r % 5
  for i = 0, n - 1 do s = s + a[i] end
end
print(s)
