local xs, ys = {}, {}
local function q(a) if a >= 0 then return a // 16 end return -((-a) // 16) end
for k = 0, 63 do xs[k] = 1000 + k * 10; ys[k] = 0 end
for t = 0, 399 do
  for k = 0, 63 do
    local x, y = xs[k], ys[k]
    if y >= 0 then x = x - y // 16 else x = x + (-y) // 16 end
    if x >= 0 then y = y + x // 16 else y = y - (-x) // 16 end
    xs[k] = x; ys[k] = y
  end
end
local sum = 0
for k = 0, 63 do sum = sum + xs[k] + ys[k] end
print(sum)
