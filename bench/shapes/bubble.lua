local a = {}
for i = 0, 399 do a[i] = (i * 7919) % 1009 end
for n = 400, 2, -1 do
  for i = 1, n - 1 do
    if a[i - 1] > a[i] then local t = a[i]; a[i] = a[i - 1]; a[i - 1] = t end
  end
end
print(a[0]); print(a[399])
