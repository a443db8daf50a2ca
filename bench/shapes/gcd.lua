local function gcd(a, b)
  while b ~= 0 do a, b = b, a % b end
  return a
end
local sum = 0
for a = 1, 199 do for b = 1, 199 do sum = sum + gcd(a, b) end end
print(sum)
