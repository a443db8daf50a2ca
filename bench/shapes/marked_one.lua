local a = {}
for i = 0, 7 do a[i] = 0 end
local s = 0
for r = 0, 19999 do
  for i = 0, 0 do s = s + a[i] + r end
end
print(s)
