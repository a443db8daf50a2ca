local even
local function odd(n) if n == 0 then return 0 end return even(n - 1) end
function even(n) if n == 0 then return 1 end return odd(n - 1) end
local t = 0
for r = 0, 1999 do t = t + even(r % 50) end
print(t)
