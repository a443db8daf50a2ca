local a = {}
for i = 0, 15 do a[i] = i % 3 end
local c = 0
for r = 0, 9999 do
  for i = 0, 5 do if a[i] == 1 then c = c + 1 end end
end
print(c)
