local moves = 0
local function hanoi(n, a, b, c)
  if n == 0 then return 0 end
  hanoi(n - 1, a, c, b)
  moves = moves + 1
  hanoi(n - 1, c, b, a)
  return 0
end
hanoi(14, 1, 2, 3)
print(moves)
