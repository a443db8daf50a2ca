local s = 0
for i = 0, 199999 do s = s + i end
print((s + 0x80000000) % 0x100000000 - 0x80000000)
