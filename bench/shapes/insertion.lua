local a = {}
local seed = 7
for i = 0, 299 do seed = (seed * 1103 + 12345) % 65536; a[i] = seed end
for i = 1, 299 do
  local x = a[i]
  local j = i - 1
  while j >= 0 and a[j] > x do a[j + 1] = a[j]; j = j - 1 end
  a[j + 1] = x
end
print(a[0]) print(a[150]) print(a[299])
