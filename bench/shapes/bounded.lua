local n = 1000
local s = 0
for r = 0, 199 do
  for i = 0, n - 1 do s = s + i end
end
print(s)
