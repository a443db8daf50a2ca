local function w(x) x = x & 0xffffffff; if x >= 0x80000000 then x = x - 0x100000000 end return x end
local x = 1
for i = 0, 399999 do x = x * 1103515245 + 12345 end
print(w(x))
