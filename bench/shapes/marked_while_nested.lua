local function g(x) return x * 2 end
local function f(x) return g(x) + 1 end
local s = 0
for r = 0, 29 do local i = 0; while i < 1000 do s = s + f(i); i = i + 1 end end
print(s)
