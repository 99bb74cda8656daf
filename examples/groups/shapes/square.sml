structure Square = struct val n = Side.n end
