local a = {}
for i = 0, 999 do a[i] = i end
local s = 0
for r = 0, 199 do for i = 0, 999 do s = s + a[i] end end
print(s)
