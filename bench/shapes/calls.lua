local function w(x) x = x & 0xffffffff; if x >= 0x80000000 then x = x - 0x100000000 end return x end
local function f(x) return x * 3 + 1 end
local s = 0
for i = 0, 399999 do s = s + f(i) end
print(w(s))
