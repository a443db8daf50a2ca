local function sum(n) if n == 0 then return 0 end return n + sum(n - 1) end
local t = 0
for r = 0, 1999 do t = t + sum(50) end
print(t)
