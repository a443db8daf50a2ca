local column, up, down = {}, {}, {}
for k = 0, 15 do column[k] = 0; up[k] = 0; down[k] = 0 end
local function place(row, n)
  if row == n then return 1 end
  local count = 0
  for c = 0, n - 1 do
    if column[c] == 0 and up[row + c] == 0 and down[row - c + n] == 0 then
      column[c] = 1; up[row + c] = 1; down[row - c + n] = 1
      count = count + place(row + 1, n)
      column[c] = 0; up[row + c] = 0; down[row - c + n] = 0
    end
  end
  return count
end
print(place(0, 8))
