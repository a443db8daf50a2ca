local a = {}
for i = 0, 3 do a[i] = 0 end
for i = 0, 99999 do
  a[0] = i
  a[1] = a[0] + a[2]
  a[2] = a[1] % 1000
end
print(a[2])
