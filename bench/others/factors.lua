local best, where = 0, 0
for n = 2, 2999 do
  local x, sum, d = n, 0, 2
  while d * d <= x do
    while x % d == 0 do sum = sum + d; x = x // d end
    d = d + 1
  end
  if x > 1 then sum = sum + x end
  if sum * 3 < n then best = best + sum; where = n end
end
print(best); print(where)
