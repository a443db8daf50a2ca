local s = 0
local n = 200000
for i = 1, n do s = s + i % 3 end
print(s)
