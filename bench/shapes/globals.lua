sum = 0
odd = 0
i = 0
while i < 300000 do
  sum = (sum + i) & 65535
  if (sum & 1) == 1 then odd = odd + 1 end
  i = i + 1
end
print(sum); print(odd)
