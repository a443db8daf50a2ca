for i = 0, 19999 do io.write(string.char(65 + i % 26)) end
