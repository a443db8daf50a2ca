local a, b, c = {}, {}, {}
for i = 0, 3599 do a[i] = i % 7 b[i] = i % 5 c[i] = 0 end
for i = 0, 59 do
  for j = 0, 59 do
    local s = 0
    for k = 0, 59 do s = s + a[i * 60 + k] * b[k * 60 + j] end
    c[i * 60 + j] = s
  end
end
print(c[61])
