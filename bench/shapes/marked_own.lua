local a, b = {}, {}
for i = 0, 999 do a[i] = i % 13 b[i] = 0 end
for r = 0, 99 do
  for i = 0, 999 do local t = a[i] local u = t * t b[i] = u + t end
end
print(b[77])
