structure Size = struct val n = 100 end
