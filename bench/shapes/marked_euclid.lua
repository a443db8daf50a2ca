local c = {}
local function gcd(x, y) if y == 0 then return x end return gcd(y, x % y) end
for r = 0, 4 do for i = 0, 199 do local n = 0; for j = 1, 19 do if gcd(i, j) == 1 then n = n + 1 end end c[i] = n end end
print(c[30])
