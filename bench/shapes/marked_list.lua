local function w(x) x = x & 0xffffffff; if x >= 0x80000000 then x = x - 0x100000000 end return x end
local next, val = {}, {}
for i = 0, 999 do next[i] = (i * 7 + 1) % 1000; val[i] = i end
local s = 0
local at = 0
for k = 0, 399999 do s = s + val[at]; at = next[at] end
print(w(s))
