local function g(x) return x * 2 end
local function f(x) return g(x) + 1 end
local s = 0
for r = 0, 29 do for i = 0, 999 do s = s + f(i) end end
print(s)
