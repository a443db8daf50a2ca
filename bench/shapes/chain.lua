local function h(x) return x * 2 end
local function g(x) return h(x) + 1 end
local function f(x) return g(x) + 3 end
local s = 0
for r = 0, 29 do for i = 0, 999 do s = s + f(i) end end
print(s)
