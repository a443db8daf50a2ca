local function quotient(a, b)
  if a >= 0 then return a // b end
  return -(-a // b)
end
local inside = 0
for row = 0, 119 do
  for col = 0, 159 do
    local cr = (col - 110) * 64
    local ci = (row - 60) * 64
    local zr, zi, n = 0, 0, 0
    while n < 60 and quotient(zr * zr, 4096) + quotient(zi * zi, 4096) < 16384 do
      local t = quotient(zr * zr - zi * zi, 4096) + cr
      zi = quotient(2 * zr * zi, 4096) + ci
      zr = t
      n = n + 1
    end
    if n == 60 then inside = inside + 1 end
  end
end
print(inside)
