local a = {}
for i = 0, 9 do a[i] = 0 end
local function f(x) return x + 1 end
for r = 0, 9999 do for i = 0, 4 do a[i] = f(a[i]) end end
print(a[2])
