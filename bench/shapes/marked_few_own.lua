local a = {}
for i = 0, 15 do a[i] = i % 3 end
local c = 0
for r = 0, 9999 do
  for i = 0, 4 do local d = a[i] - 1 c = c + d * d end
end
print(c)
