local a = {}
for i = 0, 99 do a[i] = i % 7 end
local function sum(from, to)
  local s = 0
  for i = from, to - 1 do s = s + a[i] end
  return s
end
local t = 0
for r = 0, 9999 do t = t + sum(r % 90, r % 90 + 4) end
print(t)
