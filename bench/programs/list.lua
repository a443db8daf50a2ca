local nxt, value = {}, {}
for i = 0, 20010 do
  nxt[i] = (i + 7919) % 20011
  value[i] = i & 15
end
local sum = 0
for walk = 0, 199 do
  local at = walk
  local steps = 0
  while steps < 20011 do
    sum = sum + value[at]
    at = nxt[at]
    steps = steps + 1
  end
end
print(sum)
