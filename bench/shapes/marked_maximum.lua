local a = {}
for i = 0, 999 do a[i] = (i * 7919) % 1009 end
local m = 0
for r = 0, 199 do
  m = 0
  for i = 0, 999 do if a[i] > m then m = a[i] end end
end
print(m)
