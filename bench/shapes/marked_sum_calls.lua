local function f(x) return x * 3 + 1 end
local s = 0
for r = 0, 199 do for i = 0, 999 do s = s + f(i) end end
print(s)
