structure Length = struct val n = 4 end
