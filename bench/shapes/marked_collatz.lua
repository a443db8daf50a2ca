local x, n = 27, 0
for r = 0, 1999 do
  x = r + 1
  while x ~= 1 do if x % 2 == 0 then x = x // 2 else x = 3 * x + 1 end n = n + 1 end
end
print(n)
