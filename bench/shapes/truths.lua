local n = 0
for i = 0, 99999 do
  local inside = (i > 10 and i < 500) and 1 or 0
  local chosen = (i == 3 or i == 7000) and 1 or 0
  n = n + inside + chosen
end
print(n)
