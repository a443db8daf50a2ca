local a = {}
for i = 0, 63 do a[i] = (i * 37) % 64 end
local t = 0
for r = 0, 9999 do
  local k = r % 60
  local n = 0
  while n < 4 do t = t + a[k]; k = k + 1; n = n + 1 end
end
print(t)
