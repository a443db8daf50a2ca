local a = {}
for i = 0, 999 do a[i] = 0 end
for r = 0, 399 do
  for i = 0, 999 do a[i] = 7 end
end
print(a[999])
