structure Size = struct val n = 1 end
