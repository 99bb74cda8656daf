structure User = struct val n = Size.n end
