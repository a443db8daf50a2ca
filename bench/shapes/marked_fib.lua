local out = {}
local function fib(n) if n < 2 then return n end return fib(n - 1) + fib(n - 2) end
for r = 0, 29 do for i = 0, 11 do out[i] = fib(i) end end
print(out[11])
