local a, b, c = {}, {}, {}
for i = 0, 14399 do
  a[i] = i % 7 - 3
  b[i] = i % 5 - 2
end
for i = 0, 119 do
  for j = 0, 119 do
    local sum = 0
    for k = 0, 119 do sum = sum + a[i * 120 + k] * b[k * 120 + j] end
    c[i * 120 + j] = sum
  end
end
local check = 0
for i = 0, 14399 do
  check = (check * 31 + c[i]) & 0xffffffff
end
if check >= 0x80000000 then check = check - 0x100000000 end
print(check)
