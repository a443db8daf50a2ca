local s = {}
for i = 0, 999 do s[i] = 0 end
local function f(x, y, z) return x * y + z end
for r = 0, 99 do for i = 0, 999 do s[i] = f(i, r, s[i]) end end
print(s[999])
