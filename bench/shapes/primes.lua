local function is_prime(n)
  if n < 2 then return 0 end
  local d = 2
  while d * d <= n do
    if n % d == 0 then return 0 end
    d = d + 1
  end
  return 1
end
local count = 0
for n = 0, 29999 do count = count + is_prime(n) end
print(count)
