local a, b = {}, {}
for i = 0, 999 do a[i] = 0; b[i] = 0 end
for r = 0, 399 do
  for i = 0, 999 do a[i] = b[i] end
end
print(a[999])
