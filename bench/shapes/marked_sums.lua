local g, s = {}, {}
for i = 0, 6399 do g[i] = i % 13 end
for r = 0, 29 do
  for y = 0, 79 do
    local t = 0
    for x = 0, 79 do t = t + g[y * 80 + x] end
    s[y] = t
  end
end
print(s[79])
