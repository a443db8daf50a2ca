local h, n = {}, 0
local function sift(i)
  local x = h[i]
  while 2 * i <= n do
    local c = 2 * i
    if c < n then if h[c + 1] > h[c] then c = c + 1 end end
    if h[c] <= x then break end
    h[i] = h[c]; i = c
  end
  h[i] = x
  return i
end
local seed, check = 7, 0
for r = 0, 4 do
  n = 2000
  for i = 1, 2000 do seed = (seed * 1309 + 13849) % 65536; h[i] = seed end
  for i = 1000, 1, -1 do sift(i) end
  while n > 1 do h[1], h[n] = h[n], h[1]; n = n - 1; sift(1) end
  check = (check + h[1] + h[1000] + h[2000]) % 1000003
end
print(check)
