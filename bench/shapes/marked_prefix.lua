local a = {}
for i = 0, 999 do a[i] = 0 end
for r = 0, 399 do
  for i = 1, 999 do a[i] = a[i - 1] + i end
end
print(a[999])
