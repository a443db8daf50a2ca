local t, d = {}, {}
for n = 0, 255 do local c = n
  for k = 0, 7 do if c & 1 ~= 0 then c = 23130 ~ (c >> 1) else c = c >> 1 end end
  t[n] = c end
for i = 0, 4095 do d[i] = (i * 37 + 11) & 255 end
local sum = 0
for r = 0, 19 do local c = 65535 - r
  for i = 0, 4095 do c = t[(c ~ d[i]) & 255] ~ (c >> 8) end
  sum = (sum + c) & 65535 end
print(sum)
