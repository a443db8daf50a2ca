local function w(x) x = x & 0xffffffff; if x >= 0x80000000 then x = x - 0x100000000 end return x end
local next, val = {}, {}
for i = 0, 999 do next[i] = i + 1; val[i] = i end
next[999] = -1
local s = 0
for r = 0, 399 do
  local at = 0
  while at ~= -1 do s = s + val[at]; at = next[at] end
end
print(w(s))
