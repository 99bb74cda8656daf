structure Main = struct val n = Square.n end
