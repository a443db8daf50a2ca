local a = {}
for i = 0, 199 do a[i] = (i * 7919) % 211 end
for r = 0, 199 do
  for i = 0, 198 do if a[i] > a[i + 1] then local t = a[i] a[i] = a[i + 1] a[i + 1] = t end end
end
print(a[0])
print(a[199])
