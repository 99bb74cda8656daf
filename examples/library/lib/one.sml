structure One = struct val n = 1 end
