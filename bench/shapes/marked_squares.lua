local s = {}
for i = 0, 999 do s[i] = 0 end
for r = 0, 399 do
  for i = 0, 999 do s[i] = i * i end
end
print(s[999])
