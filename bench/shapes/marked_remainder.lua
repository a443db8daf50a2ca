local function w(x) x = x & 0xffffffff; if x >= 0x80000000 then x = x - 0x100000000 end return x end
local s = {}
for i = 0, 999 do s[i] = 0 end
for r = 0, 399 do
  for i = 0, 999 do if i % 3 == 0 then s[i] = s[i] * 5 + i end end
end
print(w(s[999]))
