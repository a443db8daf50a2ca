local g, h = {}, {}
for i = 0, 9999 do g[i] = i % 7; h[i] = 0 end
for r = 0, 9 do
  for y = 1, 98 do
    for x = 1, 98 do
      local p = y * 100 + x
      h[p] = g[p - 101] + g[p - 100] + g[p - 99] + g[p - 1] + g[p + 1] + g[p + 99] + g[p + 100] + g[p + 101]
    end
  end
  for i = 0, 9999 do g[i] = h[i] % 7 end
end
local sum = 0
for i = 0, 9999 do sum = sum + g[i] end
print(sum)
