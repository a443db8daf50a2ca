local function f(x) return x * 3 + 1 end
local s = 0
local i = 0
while i < 200000 do s = s + f(i % 100) i = i + 1 end
print(s)
