local best, longest = 0, 0
for n = 1, 59999 do
  local x, steps = n, 0
  while x ~= 1 do
    if x % 2 == 0 then x = x // 2 else x = 3 * x + 1 end
    steps = steps + 1
  end
  if steps > longest then
    longest = steps
    best = n
  end
end
print(best)
print(longest)
